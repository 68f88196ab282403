/* Runs the calls that the other implementation wrote into a file (target/tests/release/beside elsewhere FILE;
 * tests/src/elsewhere.rs says how), which stands in the program itself, so that no system is needed. The number that a
 * call returns and all memory that it is lent, with margins, have to be as written. */
#include "jabulghi.h"
#include <stdio.h>
#include <string.h>

__asm__(".pushsection .rodata\n.global calls, calls_end\ncalls:\n.incbin \"" WRITTEN "\"\ncalls_end:\n.popsection");
extern const unsigned char calls[], calls_end[];
static const unsigned char *at = calls;

#define MARGIN 16
#define MARK 0xA5
/* What is lent, and what it has to be after the call. */
static union {
    uint64_t aligned;
    unsigned char bytes[1 << 16];
} lent, expected;

/* A number of so many bytes. */
static uint64_t number(int bytes) {
    uint64_t value = 0;
    for (int j = 0; j < bytes; j++) value |= (uint64_t)*at++ << 8 * j;
    return value;
}

/* Memory at a place, before the call and after it. Returns the place of the next. */
static size_t lend(size_t place) {
    size_t length = (size_t)number(2), end = (place + length + MARGIN + 7) / 8 * 8 + MARGIN;
    memset(lent.bytes + place - MARGIN, MARK, end - place);
    memcpy(lent.bytes + place, at, length);
    memcpy(expected.bytes + place - MARGIN, lent.bytes + place - MARGIN, end - place);
    at += length;
    for (size_t runs = (size_t)number(2); runs > 0; runs--) {
        size_t start = (size_t)number(2), count = (size_t)number(2);
        memcpy(expected.bytes + place + start, at, count);
        at += count;
    }
    return end;
}

/* A size_t between margins of its own, as a number of 64 bits. */
static void keep(uint64_t *place, const size_t size[3]) {
    *place = size[0] == 1 && size[2] == 3 ? size[1] : UINT64_MAX;
}

#define CALL(name, arguments)                                                                                          \
    static uint32_t name(void **p, const uint64_t *n) {                                                                \
        (void)n;                                                                                                       \
        return jabulghi_##name arguments;                                                                              \
    }
CALL(seed, ((uint32_t)n[0], (uint32_t)n[1], (uint32_t)n[2], (uint32_t)n[3], (uint32_t)n[4], (uint32_t)n[5], p[0]))
CALL(sample, (n[0], (uint32_t)n[1], p[0]))
CALL(pair, (p[0], p[1]))
CALL(block, (p[0], p[1], (size_t)n[0]))
CALL(look, (p[0], p[1], (size_t)n[0]))
CALL(skip, (p[0], n[0]))
CALL(ask, (p[0], (uint32_t)n[0]))
CALL(take, (p[0], p[1], (size_t)n[0]))
CALL(give_up, (p[0]))
CALL(sample18, (n[0], (uint32_t)n[1], p[0]))
CALL(pair18, (p[0], p[1]))
CALL(block18, (p[0], p[1], (size_t)n[0]))
CALL(look18, (p[0], p[1], (size_t)n[0]))
CALL(take18, (p[0], p[1], (size_t)n[0]))
CALL(misclosure, (p[0], (size_t)n[0], p[1], p[2], p[3]))
CALL(intervals, (p[0], (size_t)n[0], p[1], p[2], p[3]))
CALL(play, (p[0], (size_t)n[0], n[1], p[1], (size_t)n[2], p[2]))
CALL(window_make_members, (p[0], p[1], p[2], p[3], p[4], p[5], (uint32_t)n[0]))
CALL(window_push_members, (p[0], p[1], p[2], p[3], p[4], p[5], (int16_t)n[0]))
CALL(window_push_all_members, (p[0], p[1], p[2], p[3], p[4], p[5], p[6], (size_t)n[0]))
CALL(marks_save_members, (p[0], p[1], p[2], p[3], p[4], p[5], (size_t)n[0]))
CALL(marks_return_members, (p[0], p[1], p[2], p[3], p[4], p[5], (size_t)n[0]))
CALL(marks_drop_members, (p[0], p[1], p[2], p[3], p[5], (size_t)n[0]))
static uint32_t list(void **p, const uint64_t *n) {
    size_t length[3] = {1, 2, 3};
    uint32_t returned = jabulghi_list(p[0], (size_t)n[0], p[1], (size_t)n[1], p[2], &length[1]);
    keep(p[3], length);
    return returned;
}
static uint32_t legs(void **p, const uint64_t *n) {
    size_t line[3] = {1, 2, 3}, length[3] = {1, 2, 3};
    uint32_t returned = jabulghi_legs(p[0], (size_t)n[0], p[1], (size_t)n[1], &line[1], &length[1]);
    keep(p[2], line);
    keep(p[3], length);
    return returned;
}

#define ROW(name)                                                                                                      \
    { #name, name, 0 }
static struct {
    const char *name;
    uint32_t (*call)(void **, const uint64_t *);
    unsigned long ran;
} CALLS[] = {
    ROW(seed),
    ROW(sample),
    ROW(pair),
    ROW(block),
    ROW(look),
    ROW(skip),
    ROW(ask),
    ROW(take),
    ROW(give_up),
    ROW(sample18),
    ROW(pair18),
    ROW(block18),
    ROW(look18),
    ROW(take18),
    ROW(list),
    ROW(legs),
    ROW(misclosure),
    ROW(intervals),
    ROW(play),
    ROW(window_make_members),
    ROW(window_push_members),
    ROW(window_push_all_members),
    ROW(marks_save_members),
    ROW(marks_return_members),
    ROW(marks_drop_members),
};
#define ROWS (sizeof CALLS / sizeof CALLS[0])

/* The row of the name that comes next, or ROWS. */
static size_t row(void) {
    size_t j = 0, length = (size_t)number(1);
    while (j < ROWS && !(strlen(CALLS[j].name) == length && memcmp(CALLS[j].name, at, length) == 0)) j++;
    at += length;
    return j;
}

/* One call; 0 where it is not as written. */
static int run(void) {
    uint64_t numbers[8];
    void *pointers[8];
    size_t call = row(), place = MARGIN, count;
    uint32_t returned = (uint32_t)number(4);
    count = (size_t)number(1);
    for (size_t j = 0; j < count; j++) numbers[j] = number(8);
    count = (size_t)number(1);
    for (size_t j = 0; j < count; j++) {
        pointers[j] = lent.bytes + place;
        place = lend(place);
    }
    if (call == ROWS) return 0;
    CALLS[call].ran++;
    return CALLS[call].call(pointers, numbers) == returned && memcmp(lent.bytes, expected.bytes, place - MARGIN) == 0;
}

int main(void) {
    unsigned long ran = 0, wrong = 0;
    for (; at < calls_end; ran++) {
        const unsigned char *start = at;
        if (!run() && wrong++ < 10) printf("DIFFERENT: call %lu, %.*s\n", ran, start[0], (const char *)start + 1);
    }
    for (size_t j = 0; j < ROWS; j++) {
        if (CALLS[j].ran == 0) printf("NONE of jabulghi_%s\n", CALLS[j].name);
    }
    printf("%lu calls, %lu wrong\n", ran, wrong);
    return wrong != 0;
}
