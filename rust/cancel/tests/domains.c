/* What include/cancel.h says of the functions of numbers at zero, NaN and the infinities. Prints what does not hold. */
#include <float.h>
#include <math.h>
#include <stdio.h>

#include "cancel.h"

static int wrong = 0;

#define HOLDS(fact) ((fact) ? (void)0 : (void)(wrong = 1, printf("%d: %s\n", __LINE__, #fact)))

int main(void)
{
    const double zeros[] = {0.0, -0.0};
    const double beyond[] = {7.0000000000000009, -7.0000000000000009, DBL_MAX, INFINITY, -INFINITY, NAN};
    const double pi = 3.14159265358979323846;
    double pair[2], angle = NAN;
    size_t i, j;
    for (i = 0; i < sizeof beyond / sizeof *beyond; i++)
        HOLDS(cancel_sin(beyond[i]) == 0 && cancel_cos(beyond[i]) == 0);
    HOLDS(fabs(cancel_sin(7) - sin(7)) < 1e-12 && fabs(cancel_cos(-7) - cos(7)) < 1e-12);
    HOLDS(cancel_cos_sin(&angle, 1, pair, 2) == 1 && pair[0] == 0 && pair[1] == 0);
    for (i = 0; i < 2; i++) {
        for (j = 0; j < 2; j++)
            HOLDS(cancel_arg(zeros[i], zeros[j]) == 0 && cancel_norm(zeros[i], zeros[j]) == 0);
        HOLDS(cancel_arg(-1, zeros[i]) == pi && cancel_arg(-INFINITY, zeros[i]) == pi && cancel_arg(1, zeros[i]) == 0);
        HOLDS(cancel_log10(zeros[i]) == -INFINITY);
        HOLDS(cancel_narrow(zeros[i]) == 0 && !signbit(cancel_narrow(zeros[i])) == !signbit(zeros[i]));
        HOLDS(isnan(cancel_arg(NAN, zeros[i])) && isnan(cancel_arg(zeros[i], NAN)));
    }
    HOLDS(cancel_arg(0, 1) == pi / 2 && cancel_arg(0, -1) == -pi / 2 && cancel_arg(-1, -1e-9) < 0);
    HOLDS(cancel_arg(INFINITY, 1) == 0 && cancel_arg(-INFINITY, -1) == -pi && cancel_arg(1, INFINITY) == pi / 2);
    HOLDS(isnan(cancel_arg(INFINITY, INFINITY)) && isnan(cancel_arg(-INFINITY, INFINITY)));
    HOLDS(isnan(cancel_arg(NAN, INFINITY)) && isnan(cancel_arg(-INFINITY, NAN)));
    HOLDS(cancel_norm(1.35e154, 0) == INFINITY && cancel_norm(0, 1.33e154) == 1.33e154);
    HOLDS(cancel_norm(1.5e-162, 1.5e-162) == 0 && cancel_norm(1.6e-162, 0) > 0);
    HOLDS(cancel_norm(-INFINITY, 1) == INFINITY && isnan(cancel_norm(NAN, INFINITY)) && isnan(cancel_norm(0, NAN)));
    HOLDS(cancel_log10(INFINITY) == INFINITY && isnan(cancel_log10(-INFINITY)) && isnan(cancel_log10(-DBL_MIN)));
    HOLDS(isnan(cancel_log10(NAN)) && cancel_log10(1) == 0 && cancel_log10(5e-324) < -323);
    HOLDS(cancel_narrow(1 + ldexp(1, -24)) == 1 && cancel_narrow(1 + 3 * ldexp(1, -24)) == 1 + 4 * ldexp(1, -24));
    HOLDS(cancel_narrow(DBL_MAX) == INFINITY && cancel_narrow(-1e39) == -INFINITY && cancel_narrow(FLT_MAX) == FLT_MAX);
    HOLDS(cancel_narrow(-INFINITY) == -INFINITY && isnan(cancel_narrow(NAN)));
    return wrong;
}
