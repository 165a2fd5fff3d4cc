/*
 * steps.c: find, fit, look, subtract, each by a call of cancel.h, where cancel_run decides by itself.
 *   steps RATE CARRIER RECORDING LEFT
 *
 * RECORDING is a .cf32 file, CARRIER in Hz from its centre. LEFT receives it without the fitted key-downs of that
 * carrier, if what they would leave is clean; else nothing is written. Status 0: written, 1: not, 2: refused or failed.
 */
#include <math.h>
#include <stdio.h>
#include <stdlib.h>

#include "cancel.h"

static float iq[2097153]; /* the most that is accepted, and one more to be refused */

/* The number that a word is. Where it is none, NaN: the calls refuse it. */
static double number(const char *word)
{
    char *end;
    const double x = strtod(word, &end);
    return end != word && *end == '\0' ? x : NAN;
}

static void ask(const char *step, uint64_t refusal)
{
    if (refusal == CANCEL_ACCEPTED)
        return;
    fprintf(stderr, "steps: %s: %s\n", step, cancel_reason(refusal));
    exit(2);
}

int main(int argc, char **argv)
{
    const double rate = argc == 5 ? number(argv[1]) : NAN, at = argc == 5 ? number(argv[2]) : NAN;
    FILE *in = argc == 5 ? fopen(argv[3], "rb") : NULL;
    const size_t bytes = in != NULL ? fread(iq, 1, sizeof iq, in) : 1, len = bytes / sizeof *iq;
    const size_t blocks = cancel_blocks(len, rate), els_len = CANCEL_ELEMENTS_LEN(blocks);
    const size_t fits_len = CANCEL_FITS_LEN(blocks), work_len = CANCEL_WORK_LEN(blocks);
    struct cancel_fit *fits = (struct cancel_fit *)calloc(blocks + 1, sizeof *fits); /* lent as the doubles it is */
    double *els = (double *)calloc(els_len + 1, sizeof *els), *work = (double *)calloc(work_len + 1, sizeof *work);
    double *fs = (double *)fits, found[CANCEL_FIND_FIGURES], fitted[CANCEL_FIT_FIGURES];
    double left[CANCEL_RESIDUAL_FIGURES], clean[CANCEL_CLEAN_FIGURES];
    if (bytes % sizeof *iq != 0 || ferror(in) || !fits || !els || !work ||
        cancel_version() / 1000 != CANCEL_VERSION_MAJOR || cancel_version() < CANCEL_VERSION)
        return fprintf(stderr, "steps RATE CARRIER RECORDING LEFT, with a file of floats and this release\n"), 2;
    ask("find", cancel_find_elements(iq, len, rate, at, els, els_len, work, work_len, found));
    const size_t n = (size_t)found[CANCEL_FIND_LISTED];
    ask("fit", cancel_fit_elements(iq, len, rate, at, els, els_len, n, fs, fits_len, work, work_len, fitted));
    const size_t m = (size_t)fitted[CANCEL_FIT_FITTED];
    for (size_t i = 0; i < m; i++)
        printf("%.17g %.17g %.17g\n", fits[i].element.start, fits[i].gain_re, fits[i].gain_im);
    ask("look", cancel_residual_check(iq, len, rate, at, 0, els, els_len, n, fs, fits_len, m, work, work_len, left));
    ask("look", cancel_clean(left, clean));
    if (clean[CANCEL_CLEAN_CLEAN] == 0)
        return fprintf(stderr, "steps: what is left would not be clean, and nothing is written\n"), 1;
    ask("subtract", cancel_subtract(iq, len, rate, at, 0, els, els_len, n, fs, fits_len, m));
    FILE *out = fopen(argv[4], "wb");
    return out && fwrite(iq, sizeof *iq, len, out) == len && fclose(out) == 0 && !fflush(stdout) && !ferror(stdout)
        ? 0 : (perror("steps: the fits or LEFT"), 2);
}
