/* survey/mathematics.c beside the C library's long doubles, and web/print.c beside its printf. */
#include <float.h>
#include <math.h>
#include <stdarg.h>
#include <stdint.h>
#include <stdio.h>
#include <stdlib.h>
#include <string.h>

int plain_vsnprintf(char *to, size_t room, const char *format, va_list values);
double plain_sin(double x), plain_cos(double x), plain_atan(double x), plain_asin(double x), plain_exp(double x),
    plain_expm1(double x), plain_log(double x), plain_log1p(double x), plain_log10(double x), plain_erf(double x),
    plain_erfc(double x), plain_atan2(double y, double x), plain_hypot(double x, double y),
    plain_pow(double x, double y);

static uint64_t state = 88172645463325252u;
static uint64_t next(void) {
    state ^= state << 13;
    state ^= state >> 7;
    return state ^= state << 17;
}
static double within(double low, double high) {
    return low + (high - low) * (double)(next() >> 11) / 9007199254740992.0;
}

static int bad;
static void expect(int holds, const char *what, double x, double found) {
    if (holds) return;
    if (bad++ < 10) printf("FAILED: %s of %.17g is %.17g\n", what, x, found);
}

/* A function, the C library's, where it is tried, and by how many parts in 10^16 it may be off. */
struct row {
    const char *name;
    double (*ours)(double x);
    long double (*theirs)(long double x);
    double low, high, off;
};
static const struct row ROWS[] = {
    {"sin", plain_sin, sinl, -7, 7, 3},         {"sin", plain_sin, sinl, -1e5, 1e5, 3},
    {"cos", plain_cos, cosl, -7, 7, 3},         {"atan", plain_atan, atanl, -10, 10, 10},
    {"asin", plain_asin, asinl, -1, 1, 13},     {"exp", plain_exp, expl, -700, 700, 4},
    {"expm1", plain_expm1, expm1l, -1, 1, 6},   {"expm1", plain_expm1, expm1l, 0, 1e-6, 4},
    {"log", plain_log, logl, 0.5, 2, 6},        {"log", plain_log, logl, 1e-12, 1e12, 6},
    {"log1p", plain_log1p, log1pl, -0.5, 1, 9}, {"log10", plain_log10, log10l, 1e-3, 1e6, 10},
    {"erf", plain_erf, erfl, -6, 6, 30},        {"erfc", plain_erfc, erfcl, -3, 2, 4000},
    {"erfc", plain_erfc, erfcl, 2, 20, 1000},
};

static void try_row(const struct row *r) {
    for (int j = 0; j < 200000; j++) {
        double x = within(r->low, r->high), found = r->ours(x), exact = (double)r->theirs((long double)x);
        expect(fabs(found - exact) <= r->off * 1e-16 * fabs(exact), r->name, x, found);
    }
}

static void try_two(void) {
    for (int j = 0; j < 200000; j++) {
        double x = within(-100, 100), y = within(-100, 100);
        expect(fabs(plain_atan2(y, x) - atan2(y, x)) < 2e-15, "atan2", y, plain_atan2(y, x));
        expect(fabs(plain_hypot(x, y) - hypot(x, y)) <= 3e-16 * hypot(x, y), "hypot", x, plain_hypot(x, y));
        expect(fabs(plain_pow(fabs(x), y / 50) / pow(fabs(x), y / 50) - 1) < 1e-14, "pow", x,
               plain_pow(fabs(x), y / 50));
    }
    for (int n = -22; n <= 22; n++)
        expect(plain_pow(10, n) == pow(10, n) && plain_log10(pow(10, n)) == n, "power of ten", n, plain_pow(10, n));
    expect(fabs(plain_hypot(3e200, 4e200) / 5e200 - 1) < 1e-15 && plain_hypot(0, 0) == 0 && plain_hypot(3, -4) == 5,
           "hypot", 3e200, plain_hypot(3e200, 4e200));
    expect(plain_exp(-1000) == 0 && plain_exp(1000) > DBL_MAX && plain_exp(0) == 1 && plain_sin(0) == 0 &&
               plain_cos(0) == 1,
           "ends", 0, plain_exp(-1000));
    expect(plain_log(0) < -DBL_MAX && plain_erf(10) == 1 && plain_erfc(0) == 1 && plain_atan2(0, -1) > 3.14, "ends", 0,
           plain_log(0));
}

/* Any double by its bits, and what books and verdicts have: decimals, halves of the last digit, small and large. */
static double number_of(int j) {
    uint64_t bits = next();
    double any;
    memcpy(&any, &bits, sizeof any);
    switch (j % 6) {
    case 0: return any;
    case 1: return within(-1000, 1000);
    case 2: return (double)(next() % 200001) / 8 - 12500; /* halves, quarters and eighths */
    case 3: return (double)(next() % 2000000) / 1000;
    case 4: return pow(10, (int)(next() % 40) - 20) * within(0.9, 1.1);
    default: return (double)(int64_t)next();
    }
}

static void compare(const char *format, ...) {
    char ours[2048], theirs[2048];
    va_list values, again;
    va_start(values, format);
    va_copy(again, values);
    int length = plain_vsnprintf(ours, sizeof ours, format, values),
        expected = vsnprintf(theirs, sizeof theirs, format, again);
    va_end(again);
    va_end(values);
    if (length == expected && strcmp(ours, theirs) == 0) return;
    if (bad++ < 10) printf("FAILED: %s: '%s', and the C library prints '%s'\n", format, ours, theirs);
}

static void try_printing(void) {
    static const char *const FORMATS[] = {"%.17g", "%.9g",  "%g",     "%.6g",  "%.2g",     "%.3g",   "%8.2g",
                                          "%.10g", "%4.4g", "%.0f",   "%.1f",  "%.2f",     "%.3f",   "%.4f",
                                          "%+.1f", "%+.0f", "%10.1f", "%7.2f", "%-12.3f|", "%012.2f"};
    for (int j = 0; j < 600000; j++) compare(FORMATS[j % 20], number_of(j));
    for (int j = 0; j < 20000; j++) {
        uint64_t n = next() >> (j % 64);
        compare("%u %5u %03u %x %04x", (unsigned)n, (unsigned)n, (unsigned)n, (unsigned)n, (unsigned)n);
        compare("%lu %10lu", (unsigned long)n, (unsigned long)(n >> 1));
        compare("%zu %5zu %-5zu| %llu %10llu %lld %03lld", (size_t)n, (size_t)n, (size_t)n, (unsigned long long)n,
                (unsigned long long)n, (long long)n, -(long long)(n >> 1));
        compare("%d %+d %s %-12s| %12s %.*s %c %%", (int)n, (int)n, "text", "text", "text", (int)(n % 6), "text",
                (int)('a' + n % 26));
    }
    compare("%g %g %.3f %.3f %g", 0.0, -0.0, -0.0, -0.0001, DBL_MIN / 4);
    compare("%.17g %f %.0f", DBL_MAX, DBL_MAX, 0.5);
    compare("%g %g %f", (double)INFINITY, -(double)INFINITY, (double)NAN);
}

int main(void) {
    for (size_t j = 0; j < sizeof ROWS / sizeof ROWS[0]; j++) try_row(&ROWS[j]);
    try_two();
    try_printing();
    if (bad == 0)
        puts("mathematics beside the C library's long doubles, 3,000,000 values; 660,000 prints as the C library's");
    return bad != 0;
}
