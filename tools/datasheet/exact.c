/* How many of the 2^64 inputs (k, v) give a sample of each size: counted, with nothing drawn. Prints for each size s
 * from 1 how many inputs have a first sample of s or more. By the law `quarter-turn` as many have one of -s or less,
 * and the second sample has the same counts.
 *
 * A size is at least s just where F |G| >= s 2^39 - 2^38. So one table is enough: how many k have each F. As k grows F
 * falls, but from one cell of the logarithm (the k with one e, h and i) to the next it may rise by one. Within a cell
 * it never rises; each cell is counted by itself. */
#include "../../bench/plain.c" /* for its tables, which are its own */
#include "jabulghi.h"
#include <inttypes.h>
#include <stdio.h>
#include <stdlib.h>

#define LARGEST 16879  /* the largest size */
#define MOST_F 8642240 /* F is below this: crates/radius/specs/Steps.antt, radius_limit */
#define NUMBERS ((uint64_t)1 << 48)

static uint64_t with_f[MOST_F + 2]; /* how many k have F = f, then F >= f */
static uint64_t tail[LARGEST + 2];  /* how many (k, v) have a first sample of s or more */

static void hold(int holds, const char *what) {
    if (holds) return;
    fprintf(stderr, "exact: wrong: %s\n", what);
    exit(1);
}

/* M goes over the odd multiples of unit from low on; Q is constant - S, or 0, and S the quotient of r 2^16 by divisor.
 */
struct cell {
    uint64_t low, length, unit, constant, divisor;
};

static uint64_t odd_multiples_below(uint64_t x, uint64_t unit) { return ((x + unit - 1) / unit) / 2; }

/* The k of a cell with r below a limit. */
static uint64_t count_below(const struct cell *cell, uint64_t limit) {
    return odd_multiples_below(cell->low + limit, cell->unit) - odd_multiples_below(cell->low, cell->unit);
}

/* The k of a cell with F >= f: those with 2Q >= f^2. */
static uint64_t count_from(const struct cell *cell, uint64_t f) {
    uint64_t q = (f * f + 1) / 2;
    if (q == 0) return count_below(cell, cell->length);
    if (q > cell->constant) return 0;
    unsigned __int128 room = (unsigned __int128)(cell->constant - q + 1) * cell->divisor; /* r 2^16 is below it */
    unsigned __int128 limit = (room + 65535) >> 16;
    return count_below(cell, limit < cell->length ? (uint64_t)limit : cell->length);
}

static void add_cell(const struct cell *cell) {
    uint64_t most_s = (cell->length << 16) / cell->divisor;
    uint64_t f = root_bits(cell->constant > most_s ? 2 * (cell->constant - most_s) : 0);
    uint64_t left = count_below(cell, cell->length);
    hold(count_from(cell, f) == left, "a cell's least F");
    for (; left != 0; f++) {
        uint64_t next = count_from(cell, f + 1);
        with_f[f] += left - next;
        left = next;
    }
}

static void add_cells(int e, uint64_t h) {
    for (uint64_t i = 0; (i * h) << 24 < (uint64_t)1 << 40; i++) {
        uint64_t start = (i * h) << 24, end = start + (h << 24);
        if (end > (uint64_t)1 << 40) end = (uint64_t)1 << 40;
        struct cell cell = {(h << 40) + start, end - start, (uint64_t)1 << (48 - e),
                            (uint64_t)(49 - e) * K - A[h - 256] - B[i], h * (65536 + i)};
        add_cell(&cell);
    }
}

static void count_k(void) {
    for (int e = 0; e <= 48; e++) {
        for (uint64_t h = 256; h < 512; h++) add_cells(e, h);
    }
    for (size_t f = MOST_F; f-- > 0;) with_f[f] += with_f[f + 1];
    hold(with_f[0] == NUMBERS, "2^48 numbers k");
}

/* |G| of the first sample for v. */
static uint64_t sine_of(uint32_t v) {
    uint32_t w = v & 16383, a = w >> 7, b = w & 127;
    return v & 16384 ? (C[a] * c[b] - D[a] * s[b]) >> 30 : (D[a] * c[b] + C[a] * s[b]) >> 30;
}

/* The k whose size with G is at least n, n above 0. */
static uint64_t count_size(uint64_t g, uint64_t n) {
    if (g == 0) return 0;
    uint64_t f = ((n << 39) - ((uint64_t)1 << 38) + g - 1) / g;
    return f < MOST_F ? with_f[f] : 0;
}

/* First samples are above 0 in the first two quarters. */
static void count_sizes(void) {
    for (uint32_t v = 0; v < 32768; v++) {
        uint64_t g = sine_of(v), count;
        for (uint64_t n = 1; (count = count_size(g, n)) != 0; n++) tail[n] += count;
    }
    hold(tail[LARGEST] != 0 && tail[LARGEST + 1] == 0, "the largest size");
}

/* The library itself, over every v, for all k below 2048: beyond what any other k reaches the counts are the same, and
 * likewise for the second. */
static void compare_all(void) {
    const uint64_t few = 2048;
    static uint64_t above[2][LARGEST + 2], below[2][LARGEST + 2];
    int16_t two[2];
    for (uint64_t k = 0; k < few; k++) {
        for (uint32_t v = 0; v < 65536; v++) {
            hold(jabulghi_sample(k, v, two) == JABULGHI_OK, "an accepted call");
            for (int j = 0; j < 2; j++) (two[j] < 0 ? below : above)[j][abs(two[j])]++;
        }
    }
    jabulghi_sample(few, 0, two);
    for (int n = LARGEST; n > two[1] + 1; n--) {
        for (int j = 0; j < 2; j++) {
            hold(above[j][n] == tail[n] - tail[n + 1] && below[j][n] == above[j][n],
                 "a count of the library's samples");
        }
    }
    fprintf(stderr, "Sizes above %d, all k below %" PRIu64 " and all v through the library: every count is the same.\n",
            two[1] + 1, few);
}

/* How many k have a first sample of size n or more for v, if all of them come before all others: by bisection through
 * the library. */
static uint64_t bisected(uint32_t v, int n) {
    uint64_t low = 0, high = NUMBERS; /* those below low have it, those from high on have not */
    while (low < high) {
        uint64_t k = low + (high - low) / 2;
        int16_t two[2];
        jabulghi_sample(k, v, two);
        if (abs(two[0]) >= n) low = k + 1;
        else high = k;
    }
    return low;
}

/* Any v and sizes: the count by bisection is the same but where F rises at a cell's edge, and then nearly. */
static void compare_some(void) {
    const int tries = 1000000;
    int other = 0;
    uint64_t z = 88172645463325252u, most = 0;
    for (int j = 0; j < tries; j++) {
        z ^= z << 13, z ^= z >> 7, z ^= z << 17;
        uint32_t v = z & 65535;
        int n = 1 + (int)((z >> 16) % LARGEST);
        uint64_t counted = count_size(sine_of(v), (uint64_t)n), found = bisected(v, n);
        uint64_t apart = counted > found ? counted - found : found - counted;
        if (apart != 0) other++;
        if (apart > most) most = apart;
    }
    hold(other < tries / 100 && most < (uint64_t)1 << 24, "counts by bisection");
    fprintf(stderr, "Of %d counts by bisection through the library %d are others, by at most %" PRIu64 " k of 2^48.\n",
            tries, other, most);
}

int main(void) {
    plain_tables();
    count_k();
    count_sizes();
    compare_all();
    compare_some();
    for (int n = 1; n <= LARGEST; n++) printf("%d\t%" PRIu64 "\n", n, tail[n]);
}
