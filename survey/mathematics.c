/* Sines, logarithms and the like by their series. */
#include "mathematics.h"
#include <stdint.h>
#include <string.h>

/* Numbers in two parts, the first of which has so few digits that its multiples are exact. */
#define RIGHT 1.57079632679489661923
#define RIGHT_HIGH 1.57079632673412561417
#define RIGHT_LOW 6.07710050650619224932e-11
#define LN2 0.693147180559945309417
#define LN2_HIGH 0.693147180369123816490
#define LN2_LOW 1.90821492927058770002e-10
#define LN10 2.30258509299404568402
#define ROOT_PI 1.77245385090551602730

/* c[0] + c[1] x + c[2] x² + .. */
static double polynomial(double x, const double *c, int count) {
    double sum = c[count - 1];
    for (int j = count - 2; j >= 0; j--) sum = sum * x + c[j];
    return sum;
}

/* ---- Angles */

/* (sin x - x) / x³ and (cos x - 1 + x²/2) / x⁴ in x²: 1/n! with its sign. */
static const double SINE[] = {-1.0 / 6,        1.0 / 120,          -1.0 / 5040,           1.0 / 362880,
                              -1.0 / 39916800, 1.0 / 6227020800.0, -1.0 / 1307674368000., 1.0 / 355687428096000.};
static const double COSINE[] = {
    1.0 / 24,         -1.0 / 720,           1.0 / 40320,           -1.0 / 3628800,
    1.0 / 479001600., -1.0 / 87178291200.0, 1.0 / 20922789888000., -1.0 / 6402373705728000.};

static double small_sine(double x) { return x + x * (x * x) * polynomial(x * x, SINE, 8); }

/* What 1 - x²/2 is rounded by is added again. */
static double small_cosine(double x) {
    double half = x * x / 2, near = 1 - half;
    return near + ((1 - near - half) + x * x * (x * x) * polynomial(x * x, COSINE, 8));
}

/* The sine of an angle and of so many right angles more; the rest is at most one half of one. */
static double turned_sine(double x, int more) {
    if (!(fabs(x) < 1e9)) return x - x; /* too large for an angle */
    double turns = floor(x / RIGHT + 0.5), rest = x - turns * RIGHT_HIGH - turns * RIGHT_LOW;
    int quarter = ((int)(turns - 4 * floor(turns / 4)) + more) % 4;
    double value = quarter % 2 == 0 ? small_sine(rest) : small_cosine(rest);
    return quarter < 2 ? value : -value;
}

double plain_sin(double x) { return turned_sine(x, 0); }
double plain_cos(double x) { return turned_sine(x, 1); }

/* Halved twice, so that the series is short: the angle is twice that of x / (1 + sqrt(1 + x²)). */
double plain_atan(double x) {
    if (fabs(x) > 1) return (x > 0 ? RIGHT : -RIGHT) - plain_atan(1 / x);
    double half = x / (1 + sqrt(1 + x * x)), quarter = half / (1 + sqrt(1 + half * half)), square = quarter * quarter,
           sum = 0;
    for (int n = 27; n > 0; n -= 2) sum = 1.0 / n - sum * square;
    return 4 * quarter * sum;
}

double plain_atan2(double y, double x) {
    if (x > 0) return plain_atan(y / x);
    if (x < 0) return plain_atan(y / x) + (y < 0 ? -2 * RIGHT : 2 * RIGHT);
    return y > 0 ? RIGHT : y < 0 ? -RIGHT : 0;
}

double plain_asin(double x) { return plain_atan2(x, sqrt((1 - x) * (1 + x))); }

double plain_hypot(double x, double y) {
    double large = fmax(fabs(x), fabs(y)), small = fmin(fabs(x), fabs(y));
    if (large > 1e-140 && large < 1e140) return sqrt(x * x + y * y);
    return large > 0 && large < INFINITY ? large * sqrt(1 + small / large * (small / large)) : large;
}

/* ---- Powers and logarithms */

/* 2^n, for n from -1022 to 1023. */
static double power_of_two(int n) {
    uint64_t bits = (uint64_t)(n + 1023) << 52;
    double power;
    memcpy(&power, &bits, sizeof power);
    return power;
}

/* e^x - 1 for a small x, by (e^x - 1) / x: 1/n!. */
static const double POWER[] = {1.0,
                               1.0 / 2,
                               1.0 / 6,
                               1.0 / 24,
                               1.0 / 120,
                               1.0 / 720,
                               1.0 / 5040,
                               1.0 / 40320,
                               1.0 / 362880,
                               1.0 / 3628800,
                               1.0 / 39916800,
                               1.0 / 479001600,
                               1.0 / 6227020800.,
                               1.0 / 87178291200.,
                               1.0 / 1307674368000.,
                               1.0 / 20922789888000.,
                               1.0 / 355687428096000.};
static double small_expm1(double x) { return x * polynomial(x, POWER, 17); }

double plain_exp(double x) {
    if (x != x || x > 709.8) return x + INFINITY;
    if (x < -745.2) return 0;
    int n = (int)floor(x / LN2 + 0.5), half = n / 2;
    double rest = x - n * LN2_HIGH - n * LN2_LOW;
    return (1 + small_expm1(rest)) * power_of_two(half) * power_of_two(n - half);
}

double plain_expm1(double x) { return fabs(x) < 0.5 ? small_expm1(x) : plain_exp(x) - 1; }

/* log((1 + s) / (1 - s)) for |s| below 0.18: 2 (s + s³/3 + s⁵/5 + ..). */
static const double LOGARITHM[] = {1.0 / 3,  1.0 / 5,  1.0 / 7,  1.0 / 9,  1.0 / 11, 1.0 / 13, 1.0 / 15,
                                   1.0 / 17, 1.0 / 19, 1.0 / 21, 1.0 / 23, 1.0 / 25, 1.0 / 27};
static double twice_atanh(double s) { return 2 * s + 2 * s * (s * s) * polynomial(s * s, LOGARITHM, 13); }

/* x is m 2^n with m between the roots of 1/2 and of 2. */
double plain_log(double x) {
    uint64_t bits;
    if (!(x > 0) || x == INFINITY) return x == 0 ? -INFINITY : x > 0 ? x : x - x + NAN;
    if (x < 1e-300) return plain_log(x * 1e20) - 20 * LN10;
    memcpy(&bits, &x, sizeof bits);
    int n = (int)(bits >> 52) - 1023;
    double m = x * power_of_two(-(n / 2)) * power_of_two(-(n - n / 2));
    if (m > 1.4142135623730951) m /= 2, n++;
    return n * LN2_HIGH + (twice_atanh((m - 1) / (m + 1)) + n * LN2_LOW);
}

double plain_log1p(double x) { return fabs(x) < 0.25 ? twice_atanh(x / (2 + x)) : plain_log(1 + x); }

/* x^n; 1/10^n is the nearest double up to 10^22. */
static double whole_power(double x, int n) {
    double power = 1;
    for (int j = n < 0 ? -n : n; j > 0; j--) power *= x;
    return n < 0 ? 1 / power : power;
}

double plain_pow(double x, double y) {
    if (y == floor(y) && fabs(y) <= 400) return whole_power(x, (int)y);
    return plain_exp(y * plain_log(x));
}

/* Exact for powers of ten. */
double plain_log10(double x) {
    double y = plain_log(x) / LN10, whole = floor(y + 0.5);
    return fabs(y - whole) < 1e-9 && fabs(whole) <= 300 && whole_power(10, (int)whole) == x ? whole : y;
}

/* ---- The normal law */

/* The series of x from 0 to 3, and the continued fraction beyond it: 1 / (x + 1/2 / (x + 1 / (x + 3/2 / ..))). */
static double erf_series(double x) {
    double term = x, sum = x;
    for (int n = 1; n < 100 && term > sum * 1e-17; n++) {
        term *= 2 * x * x / (2 * n + 1);
        sum += term;
    }
    return 2 / ROOT_PI * plain_exp(-x * x) * sum;
}

static double erfc_fraction(double x) {
    double below = x;
    for (int n = 60; n > 0; n--) below = x + n / 2.0 / below;
    return plain_exp(-x * x) / ROOT_PI / below;
}

double plain_erf(double x) {
    if (x < 0) return -plain_erf(-x);
    return x < 2 ? erf_series(x) : 1 - erfc_fraction(x);
}

double plain_erfc(double x) {
    if (x < 0) return 2 - plain_erfc(-x);
    return x < 2 ? 1 - erf_series(x) : erfc_fraction(x);
}
