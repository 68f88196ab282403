/* The mathematics of reading and judging, equal to the last bit on every machine, in browsers and in Python: sums,
 * products, quotients and square roots of doubles alone, in a fixed order. Good to some units in the last place of a
 * double, erfc to 13 digits; what the C library gives there differs from one processor to the next. */
#ifndef MATHEMATICS_H
#define MATHEMATICS_H

#include <math.h> /* sqrt, floor, fmod and the like, which are exact everywhere */

#ifdef __clang__
#pragma STDC FP_CONTRACT OFF
#endif

double plain_sin(double x);
double plain_cos(double x);
double plain_atan(double x);
double plain_atan2(double y, double x);
double plain_asin(double x);
double plain_exp(double x);
double plain_expm1(double x);
double plain_log(double x);
double plain_log1p(double x);
double plain_log10(double x);
double plain_pow(double x, double y);
double plain_erf(double x);
double plain_erfc(double x);
double plain_hypot(double x, double y);

#define sin plain_sin
#define cos plain_cos
#define atan plain_atan
#define atan2 plain_atan2
#define asin plain_asin
#define exp plain_exp
#define expm1 plain_expm1
#define log plain_log
#define log1p plain_log1p
#define log10 plain_log10
#define pow plain_pow
#define erf plain_erf
#define erfc plain_erfc
#define hypot plain_hypot

#endif
