/* Printing for WebAssembly and Python, as C's library prints where it is told no language: numbers to the digit, since
 * a double is worked out whole before it is rounded, halves to even. */
#include <stdarg.h>
#include <stdbool.h>
#include <stdint.h>
#include <stdio.h>
#include <string.h>

/* ---- The digits of a double */

/* Limbs of nine digits: those before the point, and those behind it. A double has at most 309 digits before it and 1074
 * behind it. */
enum { BEFORE = 36, LIMBS = BEFORE + 120, DIGITS = 9 * LIMBS };
#define LIMB 1000000000u

/* A decimal without its sign: digits, of which so many stand before the point. */
typedef struct {
    char digits[DIGITS + 1];
    int count, point;
} decimal;

/* Doubles the limbs from one on, up to 29 times. */
static int times_two(uint32_t *limbs, int high, int by) {
    uint64_t carry = 0;
    for (int j = BEFORE - 1; j >= high; j--) {
        carry += (uint64_t)limbs[j] << by;
        limbs[j] = (uint32_t)(carry % LIMB);
        carry /= LIMB;
    }
    if (carry > 0) limbs[--high] = (uint32_t)carry;
    return high;
}

/* Halves the limbs up to one, up to 9 times; the place after the last. */
static int by_two(uint32_t *limbs, int high, int low, int by) {
    uint32_t left = 0;
    for (int j = high; j < low; j++) {
        uint32_t limb = limbs[j];
        limbs[j] = (limb >> by) + left;
        left = (limb & ((1u << by) - 1)) * (LIMB >> by);
    }
    if (left > 0) limbs[low++] = left;
    return low;
}

/* The digits of the limbs, without zeros in front and at the end. */
static void write_digits(const uint32_t *limbs, int high, int low, decimal *d) {
    d->count = 0;
    d->point = 9 * (BEFORE - high);
    for (int j = high; j < low; j++) {
        uint32_t worth = LIMB / 10;
        for (; worth > 0; worth /= 10) {
            char digit = (char)('0' + limbs[j] / worth % 10);
            if (d->count == 0 && digit == '0') d->point--;
            else d->digits[d->count++] = digit;
        }
    }
    while (d->count > 0 && d->digits[d->count - 1] == '0') d->count--;
}

/* m 2^e for a finite double that is not below 0. */
static void expand(double value, decimal *d) {
    uint32_t limbs[LIMBS] = {0};
    uint64_t bits;
    memcpy(&bits, &value, sizeof bits);
    int e = (int)(bits >> 52 & 2047), high = BEFORE - 2, low = BEFORE;
    uint64_t m = (bits & 0xfffffffffffffu) | (e > 0 ? 0x10000000000000u : 0);
    e = (e > 0 ? e : 1) - 1075;
    limbs[BEFORE - 2] = (uint32_t)(m / LIMB);
    limbs[BEFORE - 1] = (uint32_t)(m % LIMB);
    for (; e > 0; e -= e < 29 ? e : 29) high = times_two(limbs, high, e < 29 ? e : 29);
    for (; e<0; e += e> - 9 ? -e : 9) low = by_two(limbs, high, low, e > -9 ? -e : 9);
    write_digits(limbs, high, low, d);
    if (d->count == 0) d->point = 1; /* 0 is written as such */
}

/* Keeps so many digits, rounded. */
static void round_to(decimal *d, int keep) {
    if (keep >= d->count) return;
    bool up = keep >= 0 && d->digits[keep] >= '5';
    if (up && d->digits[keep] == '5' && keep + 1 == d->count) up = keep > 0 && (d->digits[keep - 1] - '0') % 2 == 1;
    d->count = keep < 0 ? 0 : keep;
    while (up && d->count > 0 && d->digits[d->count - 1] == '9') d->count--;
    if (up && d->count > 0) {
        d->digits[d->count - 1]++;
    } else if (up) {
        d->digits[0] = '1';
        d->count = 1;
        d->point++;
    }
}

/* ---- What is printed */

typedef struct {
    char *to;
    size_t room, length;
} printed;

/* What stands between % and the letter. */
typedef struct {
    bool left, plus, zeros;
    int width, precision; /* -1 for none */
} form;

static void put_byte(printed *p, char byte) {
    if (p->length + 1 < p->room) p->to[p->length] = byte;
    p->length++;
}

/* A sign and bytes, filled up to the width. */
static void put_padded(printed *p, const form *f, const char *sign, const char *bytes, int length) {
    int fill = f->width - length - (int)strlen(sign);
    for (; !f->left && !f->zeros && fill > 0; fill--) put_byte(p, ' ');
    for (; *sign != '\0'; sign++) put_byte(p, *sign);
    for (; !f->left && f->zeros && fill > 0; fill--) put_byte(p, '0');
    for (int j = 0; j < length; j++) put_byte(p, bytes[j]);
    for (; fill > 0; fill--) put_byte(p, ' ');
}

static void put_string(printed *p, const form *f, const char *string) {
    int length = 0;
    while ((f->precision < 0 || length < f->precision) && string[length] != '\0') length++;
    put_padded(p, f, "", string, length);
}

static void put_whole(printed *p, const form *f, const char *sign, uint64_t number, unsigned base) {
    char digits[24];
    int at = sizeof digits;
    do digits[--at] = "0123456789abcdef"[number % base];
    while ((number /= base) > 0);
    put_padded(p, f, sign, digits + at, (int)sizeof digits - at);
}

static char digit_at(const decimal *d, int j) { return j >= 0 && j < d->count ? d->digits[j] : '0'; }

/* Digits with so many behind the point; how many bytes were written. */
static int write_fixed(const decimal *d, int behind, char *to) {
    int length = 0;
    for (int j = d->point > 0 ? 0 : d->point - 1; j < d->point; j++) to[length++] = digit_at(d, j);
    if (behind > 0) to[length++] = '.';
    for (int j = 0; j < behind; j++) to[length++] = digit_at(d, d->point + j);
    return length;
}

/* One digit, the point, the others and the exponent. */
static int write_exponent(const decimal *d, int behind, int exponent, char *to) {
    int length = 0, size = exponent < 0 ? -exponent : exponent;
    to[length++] = digit_at(d, 0);
    if (behind > 0) to[length++] = '.';
    for (int j = 1; j <= behind; j++) to[length++] = digit_at(d, j);
    to[length++] = 'e';
    to[length++] = exponent < 0 ? '-' : '+';
    if (size >= 100) to[length++] = (char)('0' + size / 100);
    to[length++] = (char)('0' + size / 10 % 10);
    to[length++] = (char)('0' + size % 10);
    return length;
}

/* %g: so many digits that say something, zeros at the end left out. */
static int write_short(decimal *d, int precision, char *to) {
    int kept = precision == 0 ? 1 : precision;
    round_to(d, kept);
    int exponent = d->count == 0 ? 0 : d->point - 1;
    while (d->count > 0 && d->digits[d->count - 1] == '0') d->count--;
    if (exponent < -4 || exponent >= kept) return write_exponent(d, d->count - 1, exponent, to);
    return write_fixed(d, d->count > d->point ? d->count - d->point : 0, to);
}

static void put_double(printed *p, const form *f, double value, bool fixed) {
    static decimal d;
    static char written[DIGITS + 64];
    int precision = f->precision < 0 ? 6 : f->precision, length;
    const char *sign = __builtin_signbit(value) ? "-" : f->plus ? "+" : "";
    form plain = *f;
    if (value != value || value - value != 0) {
        plain.zeros = false;
        put_padded(p, &plain, sign, value != value ? "nan" : "inf", 3);
        return;
    }
    expand(value < 0 ? -value : value, &d);
    if (fixed) round_to(&d, d.point + precision);
    length = fixed ? write_fixed(&d, precision, written) : write_short(&d, precision, written);
    put_padded(p, f, sign, written, length);
}

/* ---- Formats */

static const char *read_number(const char *at, int *number, va_list *values) {
    *number = 0;
    if (*at == '*') return *number = va_arg(*values, int), at + 1;
    for (; *at >= '0' && *at <= '9'; at++) *number = *number * 10 + (*at - '0');
    return at;
}

static const char *read_form(const char *at, form *f, va_list *values) {
    *f = (form){false, false, false, 0, -1};
    for (; *at == '-' || *at == '+' || *at == '0'; at++) {
        f->left = f->left || *at == '-';
        f->plus = f->plus || *at == '+';
        f->zeros = f->zeros || *at == '0';
    }
    at = read_number(at, &f->width, values);
    return *at == '.' ? read_number(at + 1, &f->precision, values) : at;
}

/* A whole number of that many bytes. */
static void put_integer(printed *p, const form *f, char letter, bool wide, va_list *values) {
    int64_t number = wide ? va_arg(*values, int64_t) : va_arg(*values, int);
    bool negative = letter != 'u' && letter != 'x' && number < 0;
    uint64_t size = negative ? 0 - (uint64_t)number : wide ? (uint64_t)number : (uint32_t)number;
    put_whole(p, f, negative ? "-" : f->plus ? "+" : "", size, letter == 'x' ? 16 : 10);
}

/* What follows a %; the place after it. */
static const char *put_value(printed *p, const char *at, va_list *values) {
    form f;
    at = read_form(at, &f, values);
    bool twice = at[0] == 'l' && at[1] == 'l', once = !twice && (*at == 'z' || *at == 'l'),
         wide = twice || (once && sizeof(size_t) == sizeof(int64_t));
    at += twice ? 2 : once;
    switch (*at) {
    case '%': put_byte(p, '%'); break;
    case 'c': put_byte(p, (char)va_arg(*values, int)); break;
    case 's': put_string(p, &f, va_arg(*values, const char *)); break;
    case 'f': put_double(p, &f, va_arg(*values, double), true); break;
    case 'g': put_double(p, &f, va_arg(*values, double), false); break;
    default: put_integer(p, &f, *at, wide, values);
    }
    return at + 1;
}

int vsnprintf(char *to, size_t room, const char *format, va_list values) {
    printed p = {to, room, 0};
    va_list rest;
    va_copy(rest, values);
    while (*format != '\0') {
        if (*format == '%') format = put_value(&p, format + 1, &rest);
        else put_byte(&p, *format++);
    }
    va_end(rest);
    if (room > 0) to[p.length < room ? p.length : room - 1] = '\0';
    return (int)p.length;
}

int snprintf(char *to, size_t room, const char *format, ...) {
    va_list values;
    va_start(values, format);
    int length = vsnprintf(to, room, format, values);
    va_end(values);
    return length;
}
