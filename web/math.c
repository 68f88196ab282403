/* What C's mathematics has that is exact, for WebAssembly; survey/mathematics.c has the rest. */
#include "c.h"

double floor(double x) { return __builtin_floor(x); }
double ceil(double x) { return __builtin_ceil(x); }
double fabs(double x) { return __builtin_fabs(x); }
double sqrt(double x) { return __builtin_sqrt(x); }
double fmax(double x, double y) { return x > y || y != y ? x : y; }
double fmin(double x, double y) { return x < y || y != y ? x : y; }

/* Halves away from zero. */
double round(double x) {
    double whole = floor(fabs(x)), size = fabs(x) - whole >= 0.5 ? whole + 1 : whole;
    return __builtin_copysign(size, x);
}
long long llround(double x) { return (long long)round(x); }

/* Exact: multiples of y by powers of two are taken off, the largest first. What is left has the sign of x. */
double fmod(double x, double y) {
    double left = fabs(x), by = fabs(y), step = by;
    if (!(by > 0) || left - left != 0) return x - x + (y - y) / (by > 0 ? 1 : 0);
    while (step <= left / 2) step *= 2;
    for (; step >= by; step /= 2) left -= left >= step ? step : 0;
    return __builtin_copysign(left, x);
}
