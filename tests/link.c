#include "jabulghi.h"
#include <inttypes.h>
#include <stdio.h>

int main(void) {
    jabulghi_record record;
    int16_t block[8];
    if (jabulghi_seed(2, 8, 16, 2, 8, 16, &record) != JABULGHI_OK) return 1;
    if (jabulghi_block(&record, block, 8) != JABULGHI_OK) return 1;
    for (int j = 0; j < 8; j++) printf("%d\n", block[j]);
    printf("%" PRIu64 " pairs\n", record.count);
}
