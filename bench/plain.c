/* The steps of document 01, with the half step of document 02, in plain C: no contract, no proof, compiled with -O3. */
#include "plain.h"
#include <math.h>
#include <string.h>

static uint64_t A[256], B[256], C[128], D[128], c[128], s[128], K;

void plain_tables(void) {
    const long double turn = 6.283185307179586476925286766559L;
    K = (uint64_t)llroundl(logl(2) * 0x1p40L);
    for (int j = 0; j < 256; j++) {
        A[j] = (uint64_t)llroundl(logl((256 + j) / 256.0L) * 0x1p40L);
        B[j] = (uint64_t)llroundl(log1pl(j / 65536.0L) * 0x1p40L);
    }
    for (int j = 0; j < 128; j++) {
        C[j] = (uint64_t)llroundl(cosl(turn * j / 512) * 0x1p30L);
        D[j] = (uint64_t)llroundl(sinl(turn * j / 512) * 0x1p30L);
        c[j] = (uint64_t)llroundl(cosl(turn * j / 65536) * 0x1p30L);
        s[j] = (uint64_t)llroundl(sinl(turn * j / 65536) * 0x1p30L);
    }
}

static inline uint32_t step(uint32_t *r) {
    r[0] = ((r[0] & 0xfffffffe) << 12) ^ (((r[0] << 13) ^ r[0]) >> 19);
    r[1] = ((r[1] & 0xfffffff8) << 4) ^ (((r[1] << 2) ^ r[1]) >> 25);
    r[2] = ((r[2] & 0xfffffff0) << 17) ^ (((r[2] << 3) ^ r[2]) >> 11);
    return r[0] ^ r[1] ^ r[2];
}

static inline int accepted(const uint32_t *r) {
    return r[0] >= 2 && r[1] >= 8 && r[2] >= 16 && r[3] >= 2 && r[4] >= 8 && r[5] >= 16;
}

/* From the exponent of m, below 2^53, as a double: x86's bit scan would wait for that of the pair before. */
static inline int top_bit(uint64_t m) {
    double exact = (double)(int64_t)m;
    uint64_t bits;
    memcpy(&bits, &exact, sizeof bits);
    return (int)(bits >> 52) - 1023;
}

static inline uint64_t root_double(uint64_t x) { return (uint64_t)(int64_t)sqrt((double)(int64_t)x); }

static inline uint64_t root_bits(uint64_t x) {
    uint64_t root = 0;
    for (uint64_t bit = (uint64_t)1 << 46; bit != 0; bit >>= 2) {
        if (x >= root + bit) {
            x -= root + bit;
            root = (root >> 1) + bit;
        } else {
            root >>= 1;
        }
    }
    return root;
}

/* The size of F times G, negated where sign is all ones. */
static inline int16_t sample(uint64_t F, uint64_t G, uint64_t sign) {
    uint64_t size = (F * G + ((uint64_t)1 << 38)) >> 39;
    return (int16_t)((size ^ sign) - sign);
}

static inline void pair(uint64_t k, uint32_t v, int16_t *out, uint64_t (*root)(uint64_t)) {
    uint64_t m = 2 * k + 1;
    int e = top_bit(m);
    uint64_t M = m << (48 - e);
    uint64_t h = M >> 40, d = M & (((uint64_t)1 << 40) - 1);
    uint64_t i = d / (h << 24), r = d - i * (h << 24);
    uint64_t S = (r << 16) / (h * (65536 + i));
    int64_t Q = (int64_t)((uint64_t)(49 - e) * K - A[h - 256] - B[i] - S);
    uint64_t F = root(2 * (uint64_t)(Q < 0 ? 0 : Q));
    uint32_t q = v >> 14, w = v & 16383, a = w >> 7, b = w & 127;
    uint64_t cosine = (C[a] * c[b] - D[a] * s[b]) >> 30, sine = (D[a] * c[b] + C[a] * s[b]) >> 30;
    /* the quarters by masks: odd ones swap sine and cosine, and each member has its sign */
    uint64_t swap = (sine ^ cosine) & -(uint64_t)(q & 1);
    out[0] = sample(F, sine ^ swap, -(uint64_t)(q >> 1));
    out[1] = sample(F, cosine ^ swap, -(uint64_t)((q ^ q >> 1) & 1));
}

static inline uint32_t block_by(uint32_t *registers, int16_t *block, size_t length, uint64_t (*root)(uint64_t)) {
    if (!accepted(registers)) { return 1; }
    if (length % 2 == 1) { return 4; }
    uint32_t r[6];
    for (int j = 0; j < 6; j++) { r[j] = registers[j]; }
    /* by stretches: the draws of 512 pairs, then their samples */
    uint64_t drawn[512];
    for (size_t at = 0; at < length;) {
        size_t pairs = (length - at) / 2 < 512 ? (length - at) / 2 : 512;
        for (size_t j = 0; j < pairs; j++) {
            uint64_t a = step(r);
            drawn[j] = a << 32 | step(r + 3);
        }
        for (size_t j = 0; j < pairs; j++, at += 2) { pair(drawn[j] >> 16, drawn[j] & 65535, block + at, root); }
    }
    for (int j = 0; j < 6; j++) { registers[j] = r[j]; }
    return 0;
}

uint32_t plain_block(uint32_t *registers, int16_t *block, size_t length) {
    return block_by(registers, block, length, root_double);
}

uint32_t plain_block_bits(uint32_t *registers, int16_t *block, size_t length) {
    return block_by(registers, block, length, root_bits);
}
