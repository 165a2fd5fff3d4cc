/* Arrays of the header's records are lent as the doubles they are, and each name has its number: 300 samples at 3,000 a
 * second with one key-down at 100 to 199, turning so that no two numbers of its fit are alike. Prints what does not
 * hold. */
#include <math.h>
#include <stdio.h>

#include "cancel.h"

static int wrong = 0;

#define HOLDS(fact) ((fact) ? (void)0 : (void)(wrong = 1, printf("%d: %s\n", __LINE__, #fact)))
#define NEAR(x, y) (fabs((x) - (y)) < 1e-5)

int main(void)
{
    static float iq[600];
    static double work[CANCEL_WORK_LEN(300)];
    static struct cancel_element elements[CANCEL_ELEMENTS_LEN(300) / CANCEL_ELEMENT_NUMBERS];
    static struct cancel_fit fits[CANCEL_FITS_LEN(300) / CANCEL_FIT_NUMBERS];
    const size_t elements_len = CANCEL_ELEMENTS_LEN(300), fits_len = CANCEL_FITS_LEN(300);
    const size_t work_len = sizeof work / sizeof *work;
    double found[CANCEL_FIND_FIGURES], fitted[CANCEL_FIT_FIGURES];
    int k;
    HOLDS(cancel_blocks(600, 3000) == 300);
    for (k = 100; k < 200; k++) {
        iq[2 * k] = (float)(2 * cos(0.001 * (k - 149) + 0.5));
        iq[2 * k + 1] = (float)(2 * sin(0.001 * (k - 149) + 0.5));
    }
    HOLDS(cancel_find_elements(iq, 600, 3000, 0, (double *)elements, elements_len, work, work_len, found) == 0);
    HOLDS(found[CANCEL_FIND_KEY_DOWNS] == 1 && found[CANCEL_FIND_LISTED] == 1 && found[CANCEL_FIND_SHORT] == 0);
    HOLDS(found[CANCEL_FIND_AIRTIME] == 101 && elements[0].up == 96 && elements[0].down == 197);
    HOLDS(NEAR(elements[0].start, 99.5) && NEAR(elements[0].end, 199.5));
    HOLDS(cancel_fit_elements(iq, 600, 3000, 0, (double *)elements, elements_len, 1, (double *)fits, fits_len, work,
                              work_len, fitted) == 0 &&
          fitted[CANCEL_FIT_FITTED] == 1);
    HOLDS(fits[0].element.start == elements[0].start && fits[0].element.end == elements[0].end);
    HOLDS(fits[0].element.up == 96 && fits[0].element.down == 197);
    HOLDS(NEAR(fits[0].gain_re, 2 * cos(0.5)) && NEAR(fits[0].gain_im, 2 * sin(0.5)));
    HOLDS(NEAR(fits[0].slope_rad_per_sample, 0.001) && fits[0].ref_sample == 149);
    return wrong;
}
