/* What seeds do, over 4096 records of small seeds (each register 1 to 16 times its minimum) and twice 4096 of seeds of
 * 32 bits. Prints for each pair n "n TAB kind TAB mean square TAB mean product", in standard deviations: the mean
 * square of the samples n of all records, and the mean product of each with the next record's. Then, from a million
 * pairs of two records with one stream in common, twice, the correlation of their samples and of their squares; and the
 * first samples of some seeds. */
#include "jabulghi.h"
#include <stdio.h>
#include <stdlib.h>

#define PAIRS 4096
#define RECORDS 4096

static jabulghi_record seeded(const uint32_t *r) {
    jabulghi_record record;
    if (jabulghi_seed(r[0], r[1], r[2], r[3], r[4], r[5], &record) != JABULGHI_OK) exit(1);
    return record;
}

static void draw(jabulghi_record *record, double *x) {
    int16_t two[2];
    if (jabulghi_pair(record, two) != JABULGHI_OK) exit(1);
    for (int j = 0; j < 2; j++) x[j] = two[j] / 2048.0;
}

/* The registers of both streams from two numbers of 12 bits; those of b come in another order than those of a. */
static void small(int record, uint32_t *r) {
    static const uint32_t minimum[3] = {2, 8, 16};
    int numbers[2] = {record, (1365 * record + 77) % RECORDS};
    for (int j = 0; j < 6; j++) r[j] = minimum[j % 3] * (1 + (numbers[j / 3] >> 4 * (j % 3) & 15));
}

/* Six numbers of 32 bits, from a generator of another kind (xorshift with a product). */
static void large(int record, uint32_t *r) {
    static uint64_t z = 88172645463325252u;
    (void)record;
    for (int j = 0; j < 6; j++) {
        z ^= z << 13, z ^= z >> 7, z ^= z << 17;
        r[j] = (uint32_t)(z * 2685821657736338717u >> 32) | 16;
    }
}

/* The next pair of every record. */
static void print_next(const char *kind, int n, jabulghi_record *records) {
    static double samples[RECORDS][2];
    double squares = 0, product = 0;
    for (int record = 0; record < RECORDS; record++) draw(&records[record], samples[record]);
    for (int record = 0; record < RECORDS; record++) {
        const double *x = samples[record], *next = samples[(record + 1) % RECORDS];
        squares += x[0] * x[0] + x[1] * x[1];
        product += x[0] * next[0] + x[1] * next[1];
    }
    printf("%d\t%s\t%.4f\t%.4f\n", n, kind, squares / (2 * RECORDS), product / (2 * RECORDS));
}

static void print_kind(const char *kind, void (*seeds)(int, uint32_t *)) {
    static jabulghi_record records[RECORDS];
    for (int record = 0; record < RECORDS; record++) {
        uint32_t r[6];
        seeds(record, r);
        records[record] = seeded(r);
    }
    for (int n = 1; n <= PAIRS; n++) print_next(kind, n, records);
}

/* Two records that differ in the registers from one place on, three of them. */
static void print_common(const char *common, int other) {
    uint32_t r[6], changed[6];
    large(0, r);
    large(1, changed);
    jabulghi_record one = seeded(r);
    for (int j = 0; j < 3; j++) r[other + j] = changed[j];
    jabulghi_record two = seeded(r);
    double product = 0, squares = 0;
    const int pairs = 1000000;
    for (int n = 0; n < pairs; n++) {
        double x[2], y[2];
        draw(&one, x);
        draw(&two, y);
        for (int j = 0; j < 2; j++) {
            product += x[j] * y[j];
            squares += (x[j] * x[j] - 1) * (y[j] * y[j] - 1) / 2;
        }
    }
    printf("common\t%s\t%.4f\t%.4f\n", common, product / (2 * pairs), squares / (2 * pairs));
}

static void print_first(uint32_t s0, uint32_t s1, uint32_t s2) {
    uint32_t r[6] = {s0, s1, s2, s0, s1, s2};
    jabulghi_record at = seeded(r);
    printf("first\t%u %u %u", s0, s1, s2);
    for (int n = 0; n < 4; n++) {
        double x[2];
        draw(&at, x);
        printf("\t%.2f\t%.2f", x[0], x[1]);
    }
    printf("\n");
}

int main(void) {
    print_kind("small", small);
    print_kind("large", large);
    print_kind("second", large);
    for (int j = 0; j < 2; j++) {
        print_common("b", 0);
        print_common("a", 3);
    }
    print_first(2, 8, 16);
    print_first(3, 15, 31); /* the same but for bits that no draw reads */
    print_first(100, 200, 300);
    print_first(0x243F6A88, 0x85A308D3, 0x13198A2E);
}
