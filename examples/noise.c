/* Eight readings of one shot of 12.345 m with a sigma of 4 mm. */
#include <jabulghi.h>
#include <stdio.h>
int main(void) {
    jabulghi_record record;
    int16_t block[8];
    if (jabulghi_seed(3770694558, 3532774216, 2901327257, 4093209576, 2137023497, 2889436789, &record) != JABULGHI_OK)
        return 1;
    if (jabulghi_block(&record, block, 8) != JABULGHI_OK) return 1;
    for (int j = 0; j < 8; j++) printf("%.2f mm\n", 12345 + 4.0 * block[j] / 2048);
}
