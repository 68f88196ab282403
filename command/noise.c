/* Samples to standard output, block after block. */
#include "command.h"
#include <string.h>

/* Samples a block: as many as make 32 or 64 KiB, what a pipe holds. */
#define BLOCK 16384

/* What the words of the command line may ask for, in this order. */
enum { SEEDS, SAMPLES, SKIP, BITS, SIGMA, INTO, RAW, TEXT, ASKED };

/* A run: the record, how many samples are asked for, and how they are written: with a sigma, in its unit. */
typedef struct {
    jabulghi_record record;
    uint64_t samples;
    measure sigma;
    bool wide, raw, scaled;
} run;

/* One block of either width. */
typedef union {
    int16_t narrow[BLOCK];
    int32_t wide[BLOCK];
} block;

/* Seeds and skips; that the count has room for the whole run is tested by a skip of a copy, so that nothing is written
 * before a refusal. Half of any number of samples has room after a skip of 0: where there is none, it is the skip that
 * is too large. */
static int start(const uint32_t n[6], uint64_t skip, run *r) {
    uint32_t number = jabulghi_seed(n[0], n[1], n[2], n[3], n[4], n[5], &r->record);
    if (number != JABULGHI_OK) return refuse_option("--seeds", number);
    number = jabulghi_skip(&r->record, skip);
    if (number != JABULGHI_OK) return refuse_option("--skip", number);
    if (r->samples % 2 != 0) return refuse_option("-n", JABULGHI_ODD_LENGTH);
    jabulghi_record last = r->record;
    number = jabulghi_skip(&last, r->samples / 2);
    return number == JABULGHI_OK ? DONE : refuse_option("--skip", number);
}

/* The seeds that are given, or some that are drawn, and told. */
static int seeds_or_some(const option *given, uint32_t n[6]) {
    if (given->value != NULL) return seeds_of(given, n);
    int status = draw_seeds(n);
    if (status == DONE) note(SEEDS_DRAWN, n[0], n[1], n[2], n[3], n[4], n[5]);
    return status;
}

static int bits_of(const option *given, uint64_t *bits) {
    int status = number_of(given, UINT64_MAX, bits);
    return status == DONE && *bits != 16 && *bits != 18 ? wrong(NO_BITS, given->name, given->value) : status;
}

static int set_up(const option asked[ASKED], run *r) {
    uint32_t numbers[6];
    uint64_t skip = 0, bits = 16;
    if (asked[SAMPLES].value == NULL) return wrong(NEEDS, "noise", asked[SAMPLES].name);
    if (asked[RAW].value != NULL && asked[TEXT].value != NULL) return wrong(EITHER, "--raw", "--text");
    if (asked[RAW].value != NULL && asked[SIGMA].value != NULL) return wrong(EITHER, "--raw", "--sigma");
    int status = number_of(&asked[SAMPLES], UINT64_MAX, &r->samples);
    if (status == DONE) status = number_of(&asked[SKIP], UINT64_MAX, &skip);
    if (status == DONE) status = bits_of(&asked[BITS], &bits);
    if (status == DONE && asked[SIGMA].value != NULL) status = sigma_of(&asked[SIGMA], &r->sigma);
    if (status == DONE) status = seeds_or_some(&asked[SEEDS], numbers);
    if (status != DONE) return status;
    r->wide = bits == 18;
    r->raw = asked[RAW].value != NULL;
    r->scaled = asked[SIGMA].value != NULL;
    return start(numbers, skip, r);
}

/* A number in decimal with so many digits after its point, and a line feed; the place after them. */
static char *decimal(char *at, bool negative, uint64_t size, size_t after) {
    char digits[24];
    size_t count = 0;
    do {
        if (count == after && after > 0) digits[count++] = '.';
        digits[count++] = (char)('0' + size % 10);
        size /= 10;
    } while (size > 0 || (after > 0 && count < after + 2));
    if (negative) *at++ = '-';
    while (count > 0) *at++ = digits[--count];
    *at++ = '\n';
    return at;
}

/* A sample times sigma, rounded to thousandths of a millimetre or a step or to millionths of a degree, halves away from
 * zero. */
static char *scaled(char *at, const run *r, int32_t sample) {
    size_t after = r->sigma.in == DEGREES ? 6 : 3;
    uint64_t size = (uint64_t)(sample < 0 ? -sample : sample),
             whole = (r->wide ? 8192u : 2048u) * (after == 3 ? 1000u : 1u);
    size = (r->sigma.millionths * size + whole / 2) / whole;
    return decimal(at, sample < 0 && size > 0, size, after);
}

static int put_text(const block *b, const run *r, size_t length) {
    static char lines[BLOCK * 20]; /* the longest is -8241821.289 or, of degrees, -8241821.289062 */
    char *at = lines;
    for (size_t j = 0; j < length; j++) {
        int32_t sample = r->wide ? b->wide[j] : b->narrow[j];
        at = r->scaled ? scaled(at, r, sample) : decimal(at, sample < 0, (uint64_t)(sample < 0 ? -sample : sample), 0);
    }
    return put(lines, (size_t)(at - lines));
}

static int put_block(const block *b, const run *r, size_t length) {
    if (!r->raw) return put_text(b, r, length);
    return put(b, length * (r->wide ? sizeof b->wide[0] : sizeof b->narrow[0]));
}

static int write_samples(run *r) {
    static block b;
    int status = DONE;
    uint64_t done = 0;
    progress_start("samples", false);
    while (status == DONE && done < r->samples) {
        size_t length = r->samples - done < BLOCK ? (size_t)(r->samples - done) : BLOCK;
        uint32_t number =
            r->wide ? jabulghi_block18(&r->record, b.wide, length) : jabulghi_block(&r->record, b.narrow, length);
        status = number == JABULGHI_OK ? put_block(&b, r, length) : refuse_option("noise", number);
        done += length;
        progress_show(done, r->samples);
    }
    progress_end(done, r->samples);
    return status;
}

int noise(int count, char **words) {
    option asked[ASKED] = {{"--seeds", false, NULL}, {"-n", false, NULL},      {"--skip", false, NULL},
                           {"--bits", false, NULL},  {"--sigma", false, NULL}, {"-o", false, NULL},
                           {"--raw", true, NULL},    {"--text", true, NULL}};
    run r;
    int status = read_options(&count, words, asked, ASKED);
    if (status == DONE && count > 0) status = wrong(NO_FILE, words[0], "noise");
    if (status == DONE) status = set_up(asked, &r);
    if (status != DONE) return status;
    write_to(&asked[INTO]);
    return write_samples(&r);
}
