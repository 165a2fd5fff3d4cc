/*
 * receiver.c: takes the strong sender off a recording, with the calls of cancel.h.
 *
 *   receiver RATE HINT RECORDING [RESIDUAL]
 *
 * RATE is the recording's samples a second. HINT is about where the strong sender stands, in Hz from the recording's
 * centre. RECORDING is a .cf32 file: complex samples, each two little-endian floats, real part then imaginary part.
 * The figures of the run go to standard output by name, one to a line. RESIDUAL, where it is named, receives the
 * recording as the run leaves it: with the strong sender taken off, or as it was.
 *
 * Status 0: the run was made. 1: it was refused, and standard error says why. 2: a word is wrong, a file cannot be read
 * or written, or there is no memory.
 *
 * C99, and C++ too:  cc -std=c99 receiver.c $(pkg-config --cflags --libs cancel)
 */
#include <stdint.h>
#include <stdio.h>
#include <stdlib.h>
#include <string.h>

#include "cancel.h"

enum { DONE = 0, REFUSED = 1, FAILED = 2 };

/* Numbers of a recording or of a list, and how many. */
struct floats {
    float *at;
    size_t len;
};
struct doubles {
    double *at;
    size_t len;
};

/* The figures of a run that are plain numbers, in the order in which they are printed. */
struct named {
    int figure;
    const char *name;
};
static const struct named FIGURES[] = {
    {CANCEL_RUN_SAMPLES, "samples"},
    {CANCEL_RUN_WINDOW, "window"},
    {CANCEL_RUN_KEY_DOWNS, "key_downs"},
    {CANCEL_RUN_LISTED, "listed"},
    {CANCEL_RUN_SHORT, "short"},
    {CANCEL_RUN_FITTED, "fitted"},
    {CANCEL_RUN_SKIPPED, "skipped"},
    {CANCEL_RUN_AIRTIME, "airtime"},
    {CANCEL_RUN_BLOCKS, "blocks"},
    {CANCEL_RUN_EDGE, "edge"},
    {CANCEL_RUN_INTERIOR, "interior"},
    {CANCEL_RUN_GAP, "gap"},
    {CANCEL_RUN_OTHER, "other"},
    {CANCEL_RUN_CARRIER_HZ, "carrier_hz"},
    {CANCEL_RUN_CARRIER_STEP_HZ, "carrier_step_hz"},
    {CANCEL_RUN_EDGE_OVER_NEIGHBOUR_DB, "edge_over_neighbour_db"},
    {CANCEL_RUN_INTERIOR_OVER_NEIGHBOUR_DB, "interior_over_neighbour_db"},
    {CANCEL_RUN_RESIDUAL_EDGE_BLOCKS, "residual_edge_blocks"},
    {CANCEL_RUN_RESIDUAL_INTERIOR_BLOCKS, "residual_interior_blocks"},
    {CANCEL_RUN_RESIDUAL_GAP_BLOCKS, "residual_gap_blocks"},
    {CANCEL_RUN_EVIDENCE_GAP_BLOCKS, "evidence_gap_blocks"},
    {CANCEL_RUN_HOT_FRACTION, "hot_fraction"},
    {CANCEL_RUN_PRESENT, "offset_present"},
    {CANCEL_RUN_OFFSET_HZ, "offset_hz"},
    {CANCEL_RUN_COHERENCE, "coherence"},
};

static const char *hypothesis_name(double number)
{
    switch ((int)number) {
    case CANCEL_ONE_SIGNAL:
        return "one";
    case CANCEL_TWO_SIGNAL_CW:
        return "two";
    case CANCEL_NON_CW:
        return "noncw";
    default:
        return "unresolved";
    }
}

static int failed(const char *what, const char *why)
{
    fprintf(stderr, "receiver: %s: %s\n", what, why);
    return FAILED;
}

/* A .cf32 file holds floats of 4 bytes, the lowest first, whatever the machine's own order is. */
enum { FLOAT_BYTES = 4, FLOATS_AT_ONCE = 1 << 14 };

static float float_of(const unsigned char *bytes)
{
    uint32_t bits = 0;
    float x;
    int i;
    for (i = FLOAT_BYTES - 1; i >= 0; i--)
        bits = bits << 8 | bytes[i];
    memcpy(&x, &bits, sizeof x);
    return x;
}

static void bytes_of(float x, unsigned char *bytes)
{
    uint32_t bits;
    int i;
    memcpy(&bits, &x, sizeof bits);
    for (i = 0; i < FLOAT_BYTES; i++)
        bytes[i] = (unsigned char)(bits >> 8 * i & 0xff);
}

/* Reads to the end of the file. What is wrong, or a null pointer. */
static const char *read_floats(FILE *file, struct floats *all)
{
    static unsigned char bytes[FLOAT_BYTES * FLOATS_AT_ONCE];
    size_t room = 0, got, i;
    do {
        got = fread(bytes, 1, sizeof bytes, file);
        if (got % FLOAT_BYTES != 0)
            return "the file ends within a number";
        if (room - all->len < got / FLOAT_BYTES || all->at == NULL) {
            float *more;
            room = 2 * room + FLOATS_AT_ONCE;
            more = (float *)realloc(all->at, room * sizeof *more);
            if (more == NULL)
                return "no memory";
            all->at = more;
        }
        for (i = 0; i < got; i += FLOAT_BYTES)
            all->at[all->len++] = float_of(bytes + i);
    } while (got == sizeof bytes);
    return ferror(file) ? "cannot be read" : NULL;
}

static const char *read_recording(const char *path, struct floats *recording)
{
    const char *wrong;
    FILE *file = fopen(path, "rb");
    if (file == NULL)
        return "cannot be opened";
    wrong = read_floats(file, recording);
    fclose(file);
    return wrong;
}

static const char *write_recording(const char *path, struct floats recording)
{
    unsigned char bytes[FLOAT_BYTES];
    size_t i;
    int wrong = 0;
    FILE *file = fopen(path, "wb");
    if (file == NULL)
        return "cannot be opened for writing";
    for (i = 0; i < recording.len; i++) {
        bytes_of(recording.at[i], bytes);
        wrong |= fwrite(bytes, 1, sizeof bytes, file) != sizeof bytes;
    }
    wrong |= fclose(file) != 0;
    return wrong ? "cannot be written" : NULL;
}

/* So many numbers to lend. The pointer of a slice is never null, not even where it has no number. */
static struct doubles lend(size_t len)
{
    struct doubles slice;
    slice.len = len;
    slice.at = (double *)malloc((len > 0 ? len : 1) * sizeof *slice.at);
    return slice;
}

static void print_figures(const double *figures)
{
    size_t i;
    /* 17 digits tell any two doubles apart. */
    for (i = 0; i < sizeof FIGURES / sizeof FIGURES[0]; i++)
        printf("%-28s %.17g\n", FIGURES[i].name, figures[FIGURES[i].figure]);
    printf("%-28s %s\n", "hypothesis", hypothesis_name(figures[CANCEL_RUN_HYPOTHESIS]));
    printf("%-28s %.17g\n", "hypothesis_offset_hz", figures[CANCEL_RUN_HYPOTHESIS_OFFSET_HZ]);
    printf("%-28s %s\n", "buffer", figures[CANCEL_RUN_TAKEN] != 0 ? "taken" : "kept");
}

/* Runs the recording, in place: all lengths that the call asks for follow from the number of blocks. */
static int run(struct floats recording, double rate, double hint)
{
    const size_t blocks = cancel_blocks(recording.len, rate);
    struct doubles elements = lend(CANCEL_ELEMENTS_LEN(blocks));
    struct doubles fits = lend(CANCEL_FITS_LEN(blocks));
    struct doubles work = lend(CANCEL_WORK_LEN(blocks));
    double figures[CANCEL_RUN_FIGURES];
    int status = DONE;
    if (elements.at == NULL || fits.at == NULL || work.at == NULL) {
        status = failed("the lists", "no memory");
    } else {
        const uint64_t refusal = cancel_run(recording.at, recording.len, rate, hint, elements.at, elements.len,
                                            fits.at, fits.len, work.at, work.len, figures);
        if (refusal == CANCEL_ACCEPTED) {
            print_figures(figures);
            if (fflush(stdout) != 0 || ferror(stdout))
                status = failed("the figures", "cannot be written");
        } else {
            fprintf(stderr, "receiver: refused by question %d: %s\n", (int)refusal, cancel_reason(refusal));
            status = REFUSED;
        }
    }
    free(elements.at);
    free(fits.at);
    free(work.at);
    return status;
}

/* Is the whole word a number? */
static int number(const char *word, double *x)
{
    char *end;
    *x = strtod(word, &end);
    return end != word && *end == '\0';
}

int main(int argc, char **argv)
{
    struct floats recording = {NULL, 0};
    const char *wrong;
    double rate, hint;
    int status;
    if (argc < 4 || argc > 5) {
        fprintf(stderr, "usage: receiver RATE HINT RECORDING [RESIDUAL]\n");
        return FAILED;
    }
    if (cancel_version() / 1000 != CANCEL_VERSION_MAJOR || cancel_version() < CANCEL_VERSION)
        return failed("the library", "it is of another release than the header");
    if (!number(argv[1], &rate))
        return failed(argv[1], "the rate is to be a number");
    if (!number(argv[2], &hint))
        return failed(argv[2], "the hint is to be a number");
    wrong = read_recording(argv[3], &recording);
    status = wrong != NULL ? failed(argv[3], wrong) : run(recording, rate, hint);
    if (status == DONE && argc == 5) {
        wrong = write_recording(argv[4], recording);
        if (wrong != NULL)
            status = failed(argv[4], wrong);
    }
    free(recording.at);
    return status;
}
