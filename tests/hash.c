/* A number for 10^6 samples of each width after a long skip, drawn in blocks, and the count after them. (FNV-1a of
 * their bytes, lowest first.) */
#include "jabulghi.h"
#include <inttypes.h>
#include <stdio.h>

#define LENGTH 500
static int16_t block[LENGTH];
static int32_t block18[LENGTH];
static uint64_t hash;

static void add(uint32_t sample, int bytes) {
    for (int j = 0; j < bytes; j++) hash = (hash ^ (sample >> 8 * j & 255)) * 1099511628211u;
}

static void run(int bits) {
    jabulghi_record record;
    jabulghi_seed(3770694558u, 3532774216u, 2901327257u, 4093209576u, 2137023497u, 2889436789u, &record);
    jabulghi_skip(&record, 18446744073708051615u);
    hash = 14695981039346656037u;
    for (int k = 0; k < 1000000 / LENGTH; k++) {
        if (bits == 16) jabulghi_block(&record, block, LENGTH);
        else jabulghi_block18(&record, block18, LENGTH);
        for (int j = 0; j < LENGTH; j++)
            add(bits == 16 ? (uint32_t)block[j] : (uint32_t)block18[j], bits == 16 ? 2 : 4);
    }
    printf("%d bits: %08" PRIx32 "%08" PRIx32 ", count %" PRIu64 "\n", bits, (uint32_t)(hash >> 32), (uint32_t)hash,
           record.count);
}

int main(void) {
    run(16);
    run(18);
}
