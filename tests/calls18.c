/* The calls for samples of 18 bits from C: one that is accepted and one for each refusal of their own. */
#include "jabulghi.h"
#include <inttypes.h>
#include <stdio.h>

static void sample(uint64_t k, uint32_t v) {
    int32_t s[2] = {7, 7};
    uint32_t number = jabulghi_sample18(k, v, s);
    printf("sample %" PRIu32 ": %" PRId32 " %" PRId32 "\n", number, s[0], s[1]);
}

static void show(const char *call, uint32_t number, const int32_t s[6], const jabulghi_record *r) {
    printf("%s %" PRIu32 ":", call, number);
    for (int j = 0; j < 6; j++) printf(" %" PRId32, s[j]);
    printf(", count %" PRIu64 ", open %" PRIu32 ", asked %" PRIu32 "\n", r->count, r->open, r->asked);
}

typedef uint32_t filler(jabulghi_record *r, int32_t *block, size_t length);

static uint32_t look(jabulghi_record *r, int32_t *block, size_t length) { return jabulghi_look18(r, block, length); }

static void fill(const char *call, filler *f, jabulghi_record *r, size_t length) {
    int32_t s[6] = {7, 7, 7, 7, 7, 7};
    uint32_t number = f(r, s, length);
    show(call, number, s, r);
}

int main(void) {
    jabulghi_record r;
    int32_t two[6] = {7, 7, 7, 7, 7, 7};
    sample(0, 0);
    sample(0, 49152);
    sample((uint64_t)1 << 48, 0);
    sample(0, 65536);
    jabulghi_seed(2, 8, 16, 2, 8, 16, &r);
    show("pair", jabulghi_pair18(&r, two), two, &r);
    fill("look", look, &r, 4);
    fill("block", jabulghi_block18, &r, 4);
    fill("block", jabulghi_block18, &r, 3);
    fill("take", jabulghi_take18, &r, 4);
    jabulghi_ask(&r, 2);
    fill("block", jabulghi_block18, &r, 4);
    fill("take", jabulghi_take18, &r, 3);
    fill("look", look, &r, 3);
    fill("take", jabulghi_take18, &r, 4);
    r.a[0] = 1;
    fill("block", jabulghi_block18, &r, 4);
    return 0;
}
