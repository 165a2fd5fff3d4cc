/*
 * cancel.h: the strong sender of a recording, and the gaps it leaves.
 *
 * For x86-64; C99 or later, or C++. `./install --prefix DIR` gives lib/libcancel.a and a file for pkg-config; link it
 * and -lm.
 *
 * A recording is n complex samples, lent as 2n floats, real part then imaginary part. fs is samples per second. step
 * and window = 8 * step follow from fs: step is fs / 3000 rounded, halves up. B = n / step, rounded down;
 * cancel_blocks answers it.
 *
 * Slices. A slice is a pointer and its length in numbers, not bytes and not records. Pointers are aligned and never
 * null, not even where the length is 0, and slices that are lent to one call do not overlap. Nothing is allocated: the
 * caller lends the lists to be filled and the work slice, as long as CANCEL_ELEMENTS_LEN, CANCEL_FITS_LEN,
 * CANCEL_ROW_LEN, CANCEL_CLASSES_LEN and CANCEL_WORK_LEN say of B, or longer.
 *
 * Records. An element is 4 numbers of its list and a fit 8, in the order of struct cancel_element and struct
 * cancel_fit. These have no padding, so an array of them may be lent as its doubles, by a cast of its pointer; its
 * length is still counted in doubles. A place of a list is one record; numbers after the last whole place are no place
 * and are never written. An amplitude row and a list of classes have one number a place.
 *
 * Answers. The calls below return 0 or the number of a refusal: the first of these questions that the call asks and
 * that has the answer no. cancel_reason has a sentence for each.
 *
 *   1  fs is a number from 2000 to 192000, ends included
 *   2  the float count is even and at most 2097152; cancel_block_classes is told it as iq_len and lent no recording
 *   3  every sample is finite
 *   4  the hint or carrier is finite, of size at most fs / 2
 *   5  each list to be filled has places enough: B / 2 rounded down; in cancel_fit_elements one for each given element;
 *      in cancel_amplitude_row B - 7, none where B is below 7; in cancel_block_classes one for each block of window
 *      samples, n / window rounded down
 *   6  work has at least 4 * B numbers
 *   7  given counts fit their lists; every given number is finite, of size at most 2^200; each up and down is a whole
 *      number from 0, below 2^20. Only the first `count` records of a given list are read.
 *
 *   cancel_amplitude_row, cancel_find_elements              asks 1 2 3 4 5 6
 *   cancel_fit_elements                                     asks 1 2 3 4 5 6 7
 *   cancel_estimate_strong, cancel_run                      asks 1 2 3 4 5 6
 *   cancel_block_classes                                    asks 1 2 5 7
 *   cancel_residual_check, cancel_second_carrier_evidence   asks 1 2 3 6 7
 *   cancel_subtract                                         asks 1 2 3 7
 *   cancel_classify, cancel_clean                           asks nothing and returns 0
 *
 * On a refusal nothing lent is written, figures included: proved is that every number lent is the one it was, in a
 * logic that has one NaN, and that a NaN keeps its bits as well is not proved but compared. On a 0 all figures are
 * written, and the first places of the lists to be filled, as many as the figures count; what the places after them and
 * the work slice then hold is not said. Recordings and lists that are lent as const are never written, and the buffer
 * only as its call says. A figure that counts is a whole number below 2^53 (of cancel_fit_elements where fewer than 2^53
 * elements are given), so that it is exact as a double and converts to uint64_t with nothing lost.
 *
 * cancel_version, cancel_blocks and the functions of numbers at the end refuse nothing and return what they compute.
 *
 * Calls are re-entrant: they keep nothing between them, so several threads may make them at once, if nothing that one
 * of them writes is lent to another. A call takes less than 32 KiB of stack, however long the recording: there is no
 * recursion, and the deepest call, cancel_run, was measured at 25.1 KB. They expect the floating-point environment that
 * a program starts with (to nearest, subnormals kept) and leave it so.
 */
#ifndef CANCEL_H
#define CANCEL_H

#include <stddef.h>
#include <stdint.h>

#ifdef __cplusplus
extern "C" {
#endif

/*
 * The interface's version. MAJOR grows where the same call on the same input answers something else or needs other room,
 * MINOR where something is added.
 */
#define CANCEL_VERSION_MAJOR 1
#define CANCEL_VERSION_MINOR 2
#define CANCEL_VERSION (CANCEL_VERSION_MAJOR * 1000 + CANCEL_VERSION_MINOR)

/*
 * The same number of the library that is linked. It has all that is in this header if cancel_version() / 1000 is
 * CANCEL_VERSION_MAJOR and cancel_version() is at least CANCEL_VERSION.
 */
uint64_t cancel_version(void);

/* Numbers in a record, in a residual check that is handed in, and in the figures of each call. */
#define CANCEL_ELEMENT_NUMBERS 4
#define CANCEL_FIT_NUMBERS 8
#define CANCEL_CHECK_NUMBERS 5
#define CANCEL_ROW_FIGURES 3
#define CANCEL_FIND_FIGURES 4
#define CANCEL_FIT_FIGURES 1
#define CANCEL_ESTIMATE_FIGURES 7
#define CANCEL_CLASSES_FIGURES 5
#define CANCEL_RESIDUAL_FIGURES 5
#define CANCEL_EVIDENCE_FIGURES 5
#define CANCEL_CLASSIFY_FIGURES 2
#define CANCEL_CLEAN_FIGURES 1
#define CANCEL_RUN_FIGURES 28

/* The numbers that the lists to be filled and the work slice need where B blocks are counted. Each can be 0. */
#define CANCEL_ELEMENTS_LEN(blocks) ((blocks) / 2 * CANCEL_ELEMENT_NUMBERS)
#define CANCEL_FITS_LEN(blocks) ((blocks) / 2 * CANCEL_FIT_NUMBERS)
#define CANCEL_ROW_LEN(blocks) ((blocks) > 7 ? (blocks) - 7 : 0)
#define CANCEL_CLASSES_LEN(blocks) ((blocks) / 8)
#define CANCEL_WORK_LEN(blocks) ((blocks) * 4)

/*
 * An element: its times in samples, which may lie between two, and its positions in the amplitude row.
 *
 * Of every list that a call finds, but not of elements that are handed in: up and down are whole numbers, up at least 1
 * and less than down. start lies from the centre of the window at up - 1 to the centre at up, ends included, and end
 * likewise for down; the centre of the window at i is i * step + (window - 1) / 2.0. The next element starts later than
 * this one, and not before this one ends: two neighbours may touch, not overlap.
 */
struct cancel_element {
    double start;
    double end;
    double up;
    double down;
};

/* A fit: its element, the gain, the phase slope and the sample at which the gain's phase is meant. */
struct cancel_fit {
    struct cancel_element element;
    double gain_re;
    double gain_im;
    double slope_rad_per_sample;
    double ref_sample;
};

/* An array whose length is negative, so an error here, where a record has padding. */
typedef char cancel_element_as_numbers
    [sizeof(struct cancel_element) == CANCEL_ELEMENT_NUMBERS * sizeof(double) ? 1 : -1];
typedef char cancel_fit_as_numbers[sizeof(struct cancel_fit) == CANCEL_FIT_NUMBERS * sizeof(double) ? 1 : -1];

/* What a call returns. */
enum cancel_refusal {
    CANCEL_ACCEPTED = 0,
    CANCEL_REFUSED_RATE = 1,
    CANCEL_REFUSED_COUNT = 2,
    CANCEL_REFUSED_SAMPLE = 3,
    CANCEL_REFUSED_CARRIER = 4,
    CANCEL_REFUSED_PLACES = 5,
    CANCEL_REFUSED_WORK = 6,
    CANCEL_REFUSED_GIVEN = 7
};

/* What is wrong, and what to do. */
static inline const char *cancel_reason(uint64_t refusal)
{
    switch (refusal) {
    case CANCEL_ACCEPTED:
        return "accepted";
    case CANCEL_REFUSED_RATE:
        return "the rate is not a number from 2000 to 192000 samples a second: "
               "give the rate of the recording, or resample it";
    case CANCEL_REFUSED_COUNT:
        return "the recording is not a whole number of samples, at most 1048576: "
               "lend whole samples, and a longer recording in pieces";
    case CANCEL_REFUSED_SAMPLE:
        return "a sample is infinite or not a number: "
               "look at what recorded it, for such a number is no measurement";
    case CANCEL_REFUSED_CARRIER:
        return "the hint or carrier is not a finite number of size at most half the rate: "
               "give it in Hz from the recording's centre";
    case CANCEL_REFUSED_PLACES:
        return "a list to be filled has too few places: "
               "make room for a recording of this length";
    case CANCEL_REFUSED_WORK:
        return "the work slice has too few numbers: "
               "make room for a recording of this length";
    case CANCEL_REFUSED_GIVEN:
        return "a given count exceeds its list, or a given number is not finite, too large or no position: "
               "hand over elements and fits as a call answered them";
    default:
        return "a refusal that is not known here: "
               "take the header and the library of one release";
    }
}

/* A hypothesis as a figure has it. TWO_SIGNAL_CW alone has an offset. */
enum cancel_hypothesis {
    CANCEL_ONE_SIGNAL = 0,
    CANCEL_TWO_SIGNAL_CW = 1,
    CANCEL_NON_CW = 2,
    CANCEL_UNRESOLVED = 3
};

/* The class of a block as a list of classes has it. */
enum cancel_class {
    CANCEL_EDGE = 0,
    CANCEL_INTERIOR = 1,
    CANCEL_GAP = 2,
    CANCEL_OTHER = 3
};

/*
 * The number of whole steps, B, in a recording of iq_len floats; 0 where question 1 refuses fs. Nothing else is asked.
 */
size_t cancel_blocks(size_t iq_len, double fs);

/*
 * The figures of cancel_amplitude_row. PRESENT is 0 or 1, and THRESHOLD is 0 where PRESENT is: then the row is empty, or
 * half its 98th percentile is not positive, and there are no key-downs.
 */
enum cancel_row_figure {
    CANCEL_ROW_AMPLITUDES,
    CANCEL_ROW_PRESENT,
    CANCEL_ROW_THRESHOLD
};

/*
 * The amplitude row of the carrier at carrier_hz, and the threshold at which cancel_find_elements finds its key-downs
 * there. row receives the B - 7 amplitudes, none where B is below 7. Amplitude i is of the window samples from
 * i * step on; an element's up and down are positions in this row.
 */
uint64_t cancel_amplitude_row(const float *iq, size_t iq_len, double fs, double carrier_hz,
                              double *row, size_t row_len, double *work, size_t work_len, double *figures);

/* The figures of cancel_find_elements. Airtime is in samples, over the listed elements. */
enum cancel_find_figure {
    CANCEL_FIND_KEY_DOWNS,
    CANCEL_FIND_LISTED,
    CANCEL_FIND_SHORT,
    CANCEL_FIND_AIRTIME
};

/*
 * Key-down elements of the carrier at carrier_hz, an offset from the recording's centre. elements receives the listed
 * ones.
 */
uint64_t cancel_find_elements(const float *iq, size_t iq_len, double fs, double carrier_hz,
                              double *elements, size_t elements_len, double *work, size_t work_len, double *figures);

/* The figure of cancel_fit_elements. */
enum cancel_fit_figure {
    CANCEL_FIT_FITTED
};

/*
 * Gain and phase slope of each given element whose interior is long enough and lies in the recording. fits receives
 * the fitted ones, in the order of their elements.
 */
uint64_t cancel_fit_elements(const float *iq, size_t iq_len, double fs, double carrier_hz,
                             const double *elements, size_t elements_len, size_t element_count,
                             double *fits, size_t fits_len, double *work, size_t work_len, double *figures);

/* The figures of cancel_estimate_strong. */
enum cancel_estimate_figure {
    CANCEL_ESTIMATE_CARRIER_HZ,
    CANCEL_ESTIMATE_CARRIER_STEP_HZ,
    CANCEL_ESTIMATE_KEY_DOWNS,
    CANCEL_ESTIMATE_LISTED,
    CANCEL_ESTIMATE_SHORT,
    CANCEL_ESTIMATE_AIRTIME,
    CANCEL_ESTIMATE_FITTED
};

/*
 * Find, fit, refine the carrier once, find and fit again at the refined carrier. elements receives the listed ones and
 * fits the fitted ones, both of the second pass.
 */
uint64_t cancel_estimate_strong(const float *iq, size_t iq_len, double fs, double hint_hz,
                                double *elements, size_t elements_len, double *fits, size_t fits_len,
                                double *work, size_t work_len, double *figures);

/* The figures of cancel_block_classes: the blocks of window samples, and how many are of each class. */
enum cancel_classes_figure {
    CANCEL_CLASSES_BLOCKS,
    CANCEL_CLASSES_EDGE,
    CANCEL_CLASSES_INTERIOR,
    CANCEL_CLASSES_GAP,
    CANCEL_CLASSES_OTHER
};

/*
 * What each block of window samples is to a given estimate's sender, in a recording of iq_len floats: classes receives
 * an enum cancel_class for each block. No recording is lent: a class follows from the length, the rate and the times of
 * the estimate's elements and fits. The estimate is its carrier, its carrier step, and the first element_count elements
 * and fit_count fits of two lists.
 */
uint64_t cancel_block_classes(size_t iq_len, double fs, double carrier_hz, double carrier_step_hz,
                              const double *elements, size_t elements_len, size_t element_count,
                              const double *fits, size_t fits_len, size_t fit_count,
                              double *classes, size_t classes_len, double *figures);

/* The figures of cancel_residual_check. A ratio is +infinity where one of its sides is missing. */
enum cancel_residual_figure {
    CANCEL_RESIDUAL_EDGE_OVER_NEIGHBOUR_DB,
    CANCEL_RESIDUAL_INTERIOR_OVER_NEIGHBOUR_DB,
    CANCEL_RESIDUAL_EDGE_BLOCKS,
    CANCEL_RESIDUAL_INTERIOR_BLOCKS,
    CANCEL_RESIDUAL_GAP_BLOCKS
};

/*
 * What taking a given estimate off would leave of the strong sender, over the level of its neighbour. The estimate is
 * its carrier, its carrier step, and the first element_count elements and fit_count fits of two lists.
 */
uint64_t cancel_residual_check(const float *iq, size_t iq_len, double fs, double carrier_hz, double carrier_step_hz,
                               const double *elements, size_t elements_len, size_t element_count,
                               const double *fits, size_t fits_len, size_t fit_count,
                               double *work, size_t work_len, double *figures);

/* The figures of cancel_second_carrier_evidence. PRESENT is 0 or 1, and OFFSET_HZ is 0 where PRESENT is. */
enum cancel_evidence_figure {
    CANCEL_EVIDENCE_GAP_BLOCKS,
    CANCEL_EVIDENCE_HOT_FRACTION,
    CANCEL_EVIDENCE_PRESENT,
    CANCEL_EVIDENCE_OFFSET_HZ,
    CANCEL_EVIDENCE_COHERENCE
};

/* What a second carrier shows in the gaps of a given estimate. */
uint64_t cancel_second_carrier_evidence(const float *iq, size_t iq_len, double fs,
                                        double carrier_hz, double carrier_step_hz,
                                        const double *elements, size_t elements_len, size_t element_count,
                                        const double *fits, size_t fits_len, size_t fit_count,
                                        double *work, size_t work_len, double *figures);

/* The figures of cancel_classify: an enum cancel_hypothesis, and its offset, 0 but for TWO_SIGNAL_CW. */
enum cancel_classify_figure {
    CANCEL_CLASSIFY_HYPOTHESIS,
    CANCEL_CLASSIFY_OFFSET_HZ
};

/*
 * The hypothesis that an evidence supports, NaN included. present says whether there is an offset: 0 no, anything else
 * yes; offset_hz counts only where there is one.
 */
uint64_t cancel_classify(uint64_t gap_blocks, double hot_fraction, uint64_t present, double offset_hz,
                         double coherence, double *figures);

/* The figure of cancel_clean: 0 or 1. */
enum cancel_clean_figure {
    CANCEL_CLEAN_CLEAN
};

/*
 * Whether a residual check is clean: its edge ratio is at most -7 dB and its interior ratio at most -10 dB. check is a
 * pointer to CANCEL_CHECK_NUMBERS numbers, the first figures of cancel_residual_check. Only the two ratios count; the
 * counts of blocks are not read. A NaN is not clean, -infinity is.
 */
uint64_t cancel_clean(const double *check, double *figures);

/*
 * Takes a given estimate off the recording in buf: each fit in order, on the samples that its span covers. All other
 * samples keep every bit.
 */
uint64_t cancel_subtract(float *buf, size_t buf_len, double fs, double carrier_hz, double carrier_step_hz,
                         const double *elements, size_t elements_len, size_t element_count,
                         const double *fits, size_t fits_len, size_t fit_count);

/*
 * The figures of cancel_run. BLOCKS are blocks of window samples, and EDGE, INTERIOR, GAP and OTHER count those of each
 * class. TAKEN is 0 or 1.
 */
enum cancel_run_figure {
    CANCEL_RUN_SAMPLES,
    CANCEL_RUN_WINDOW,
    CANCEL_RUN_KEY_DOWNS,
    CANCEL_RUN_LISTED,
    CANCEL_RUN_SHORT,
    CANCEL_RUN_FITTED,
    CANCEL_RUN_SKIPPED,
    CANCEL_RUN_AIRTIME,
    CANCEL_RUN_BLOCKS,
    CANCEL_RUN_EDGE,
    CANCEL_RUN_INTERIOR,
    CANCEL_RUN_GAP,
    CANCEL_RUN_OTHER,
    CANCEL_RUN_CARRIER_HZ,
    CANCEL_RUN_CARRIER_STEP_HZ,
    CANCEL_RUN_EDGE_OVER_NEIGHBOUR_DB,
    CANCEL_RUN_INTERIOR_OVER_NEIGHBOUR_DB,
    CANCEL_RUN_RESIDUAL_EDGE_BLOCKS,
    CANCEL_RUN_RESIDUAL_INTERIOR_BLOCKS,
    CANCEL_RUN_RESIDUAL_GAP_BLOCKS,
    CANCEL_RUN_EVIDENCE_GAP_BLOCKS,
    CANCEL_RUN_HOT_FRACTION,
    CANCEL_RUN_PRESENT,
    CANCEL_RUN_OFFSET_HZ,
    CANCEL_RUN_COHERENCE,
    CANCEL_RUN_HYPOTHESIS,
    CANCEL_RUN_HYPOTHESIS_OFFSET_HZ,
    CANCEL_RUN_TAKEN
};

/*
 * The whole: estimate, residual check, evidence, hypothesis; then the strong sender is taken off the recording in buf
 * where the hypothesis is TWO_SIGNAL_CW, the fits are enough, the carrier step is small and the residual is clean. If
 * TAKEN is 0, buf keeps every bit. elements receives the listed ones and fits the fitted ones, both of the second pass.
 */
uint64_t cancel_run(float *buf, size_t buf_len, double fs, double hint_hz,
                    double *elements, size_t elements_len, double *fits, size_t fits_len,
                    double *work, size_t work_len, double *figures);

/* The arithmetic that the calls are made of, open for tests. Every number may be handed in. */

/* Sine and cosine of x radians, where |x| <= 7. Both are 0 of all else: larger numbers, infinities, NaN. */
double cancel_sin(double x);
double cancel_cos(double x);
/*
 * The cosine and the sine of each angle: out receives pairs (cosine, sine), as many as there are angles and room for.
 * Returns how many. A single cancel_sin or cancel_cos makes its table anew; here it is made once for all angles.
 */
size_t cancel_cos_sin(const double *angles, size_t angles_len, double *out, size_t out_len);
/*
 * The angle of re + im i in radians, negative where im is: 0 where both are zero, PI where re is negative and im a zero
 * of either sign. Of one infinite part it is the angle of that part's axis. It is NaN of a NaN and of two infinities.
 */
double cancel_arg(double re, double im);
/*
 * The square root of re * re + im * im, every operation rounded: infinite where a square or their sum is too large for
 * a double (a part of some 1.34e154), 0 where both squares are too small for one (below some 1.57e-162). An infinite
 * part gives infinity; a NaN gives NaN, beside an infinity too.
 */
double cancel_norm(double re, double im);
/* The logarithm to base 10: -infinity of both zeros, infinity of infinity, NaN of NaN and of what is below zero. */
double cancel_log10(double y);
/* The float nearest to x, of two the even one; an infinity where x is too large for one, and a NaN of a NaN. */
float cancel_narrow(double x);

#ifdef __cplusplus
}
#endif

#endif
