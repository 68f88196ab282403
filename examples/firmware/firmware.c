/* A simulated logger without a system: the shots of a loop, each with noise as a listing has it, drawn shot by shot, so
 * that no text is kept (jabulghi_list makes the whole listing, in up to 20 KB of memory). It prints over semihosting
 * what `jabulghi list ../loop.job` prints. */
#include "jabulghi.h"
#include "semihosting.h"

struct shot {
    const char *from, *to;
    int32_t millimetres, step;
};
static const struct shot SHOTS[] = {
    {"E0", "D1", 21700, 2321},  {"D1", "D2", 18050, 60348}, {"D2", "D3", 14255, 49480}, {"D3", "D4", 11900, 46239},
    {"D4", "D5", 13310, 36454}, {"D5", "D6", 16600, 27489}, {"D6", "D7", 9400, 21527},  {"D7", "E0", 17999, 17979},
};
enum { COUNT = sizeof SHOTS / sizeof SHOTS[0], SIGMA_MILLIMETRES = 4, SIGMA_STEPS = 10 };

/* sigma * |sample| / 2048, rounded to the nearest, halves away from zero, with the sample's sign. */
static int32_t noise(int32_t sigma, int32_t sample) {
    int32_t size = (sigma * (sample < 0 ? -sample : sample) + 1024) / 2048;
    return sample < 0 ? -size : size;
}

static void print_number(uint32_t number) {
    char digits[11], *first = digits + sizeof digits - 1;
    *first = 0;
    do *--first = (char)('0' + number % 10);
    while (number /= 10);
    print(first);
}

/* Four fields with blanks between them, on a line. */
static void print_shot(const struct shot *shot, int32_t millimetres, int32_t step) {
    print(shot->from);
    print(" ");
    print(shot->to);
    print(" ");
    print_number(millimetres < 0 ? 0 : (uint32_t)millimetres);
    print(" ");
    print_number((uint32_t)step & 65535);
    print("\n");
}

int main(void) {
    static jabulghi_record record;
    int16_t samples[2];
    /* a device keeps its record, or seeds it with six numbers of its own, as `jabulghi seeds` draws them */
    uint32_t number =
        jabulghi_seed(3770694558u, 3532774216u, 2901327257u, 4093209576u, 2137023497u, 2889436789u, &record);
    if (number != JABULGHI_OK) leave(1);
    print("FROM TO MM STEP\n");
    for (int j = 0; j < COUNT; j++) {
        jabulghi_pair(&record, samples);
        print_shot(&SHOTS[j], SHOTS[j].millimetres + noise(SIGMA_MILLIMETRES, samples[0]),
                   SHOTS[j].step + noise(SIGMA_STEPS, samples[1]));
    }
    print("END ");
    print_number(COUNT);
    print("\n");
    leave(0);
}
