/* How many instructions calls take on a processor without a system, as qemu counts them (-icount): not how many cycles.
 * Prints a number for each. The clock is read before and after; a loop of known length says how many instructions a
 * tick is. */
#include "jabulghi.h"
#include <stdio.h>
#include <string.h>

#if defined(__riscv)
#define CLOCK 0xFFFFFFFF
static void start_clock(void) {}
static uint32_t now(void) {
    uint32_t x;
    __asm__ volatile(".insn i 0x73, 2, %0, x0, -1278" : "=r"(x));
    return x;
} /* csrr minstret */
static void count_down(uint32_t n) { __asm__ volatile("1: addi %0, %0, -1\nbnez %0, 1b" : "+r"(n)); }
#else
#define CLOCK 0xFFFFFF /* it has 24 bits, and counts down */
static volatile uint32_t *const SYSTICK = (volatile uint32_t *)0xE000E010;
static void start_clock(void) {
    SYSTICK[1] = CLOCK;
    SYSTICK[2] = 0;
    SYSTICK[0] = 5;
}
static uint32_t now(void) { return CLOCK - SYSTICK[2]; }
static void count_down(uint32_t n) {
    __asm__ volatile(".syntax unified\n1: subs %0, %0, #1\nbne 1b" : "+l"(n) : : "cc");
}
#endif

#define LOOP 1000000u
static uint32_t begun, ticks_of_loop;
static void begin(void) { begun = now(); }
static uint32_t ticks(void) {
    uint32_t end = now();
    return (end - begun) & CLOCK;
}
static void end(const char *what, uint32_t times) {
    uint64_t passed = ticks();
    printf("%s\t%lu\n", what, (unsigned long)(passed * 2 * LOOP / ticks_of_loop / times));
}

static jabulghi_record record;
static jabulghi_window window;
static jabulghi_marks marks;
static int16_t samples[64];
static int32_t samples18[64];
static char job[2000], listing[2000], survey[2000];
static size_t length, line_of_legs;
static uint32_t line;
static int64_t sums[2], millimetres[2];

static void texts(void) {
    char *at = job + sprintf(job, "(seeds (a 2 8 16) (b 2 8 16))\n(sigma 4 10)\n"),
         *leg = survey + sprintf(survey, "*data normal from to tape compass clino\n");
    for (int j = 0; j < 20; j++) {
        at += sprintf(at, "(shot D%d D%d 12345 4500)\n", j, j + 1);
        leg += sprintf(leg, "D%d D%d 12.345 24.72 0\n", j, j + 1);
    }
    begin();
    jabulghi_list((const uint8_t *)job, (size_t)(at - job), (uint8_t *)listing, sizeof listing, &line, &length);
    end("list of 20 shots", 1);
    begin();
    jabulghi_misclosure((const uint8_t *)listing, length, sums, millimetres, &line);
    end("misclosure of 20 shots", 1);
    begin();
    jabulghi_legs((const uint8_t *)survey, (size_t)(leg - survey), (uint8_t *)job, sizeof job, &line_of_legs, &length);
    end("legs, 20 of them", 1);
}

int main(void) {
    start_clock();
    begin();
    count_down(LOOP);
    ticks_of_loop = ticks();
    begin();
    jabulghi_seed(3770694558u, 3532774216u, 2901327257u, 4093209576u, 2137023497u, 2889436789u, &record);
    end("seed", 1);
    begin();
    for (int j = 0; j < 100; j++) jabulghi_pair(&record, samples);
    end("pair", 100);
    begin();
    for (int j = 0; j < 20; j++) jabulghi_block(&record, samples, 64);
    end("block of 64, a sample", 20 * 64);
    begin();
    for (int j = 0; j < 20; j++) jabulghi_block18(&record, samples18, 64);
    end("block18 of 64, a sample", 20 * 64);
    begin();
    jabulghi_skip(&record, 1000);
    end("skip of 1000", 1);
    begin();
    jabulghi_skip(&record, (uint64_t)1 << 63);
    end("skip of 2^63", 1);
    jabulghi_window_make(&window, 1000);
    begin();
    for (int j = 0; j < 64; j++) jabulghi_window_push(&window, samples[j]);
    end("window_push", 64);
    begin();
    jabulghi_marks_save(&marks, &record, "D7", 2);
    end("marks_save", 1);
    texts();
}
