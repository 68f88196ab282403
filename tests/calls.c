/* Every call of include/jabulghi.h from C but those for 18 bits and jabulghi_play: one that is accepted and one for
 * each refusal but 9. */
#include "jabulghi.h"
#include <inttypes.h>
#include <stdio.h>
#include <string.h>

/* A record is six registers, a count and a note with nothing between them: where that fails, the size of an array is
 * negative. */
typedef char record_has_40_bytes[sizeof(jabulghi_record) == 40 ? 1 : -1];
typedef char a_comes_first[offsetof(jabulghi_record, a) == 0 ? 1 : -1];
typedef char b_comes_after[offsetof(jabulghi_record, b) == 12 ? 1 : -1];
typedef char count_comes_third[offsetof(jabulghi_record, count) == 24 ? 1 : -1];
typedef char open_comes_fourth[offsetof(jabulghi_record, open) == 32 ? 1 : -1];
typedef char asked_comes_last[offsetof(jabulghi_record, asked) == 36 ? 1 : -1];
typedef char window_has_8224_bytes[sizeof(jabulghi_window) == 8224 ? 1 : -1];
typedef char size_comes_first[offsetof(jabulghi_window, size) == 0 ? 1 : -1];
typedef char held_comes_after[offsetof(jabulghi_window, held) == 4 ? 1 : -1];
typedef char place_is_third[offsetof(jabulghi_window, place) == 8 ? 1 : -1];
typedef char places_come_next[offsetof(jabulghi_window, places) == 12 ? 1 : -1];
typedef char sum_is_aligned[offsetof(jabulghi_window, sum) == 8208 ? 1 : -1];
typedef char squares_come_last[offsetof(jabulghi_window, squares) == 8216 ? 1 : -1];

static void show_record(const jabulghi_record *r) {
    printf(" %" PRIu32 " %" PRIu32 " %" PRIu32 " %" PRIu32 " %" PRIu32 " %" PRIu32, r->a[0], r->a[1], r->a[2], r->b[0],
           r->b[1], r->b[2]);
    printf(", count %" PRIu64, r->count);
    if (r->open || r->asked) printf(", open %" PRIu32 ", asked %" PRIu32, r->open, r->asked);
    printf("\n");
}

static void seed(jabulghi_record *r, uint32_t a0) {
    uint32_t number = jabulghi_seed(a0, 8, 16, 5, 60, 700, r);
    printf("seed %" PRIu32 ":", number);
    show_record(r);
}

static void sample(uint64_t k, uint32_t v) {
    int16_t s[2] = {7, 7};
    uint32_t number = jabulghi_sample(k, v, s);
    printf("sample %" PRIu32 ": %d %d\n", number, s[0], s[1]);
}

static void pair(jabulghi_record *r) {
    int16_t s[2] = {7, 7};
    uint32_t number = jabulghi_pair(r, s);
    printf("pair %" PRIu32 ": %d %d, record", number, s[0], s[1]);
    show_record(r);
}

static void block(jabulghi_record *r, size_t length) {
    int16_t s[6] = {7, 7, 7, 7, 7, 7};
    uint32_t number = jabulghi_block(r, s, length);
    printf("block %" PRIu32 ": %d %d %d %d %d %d, record", number, s[0], s[1], s[2], s[3], s[4], s[5]);
    show_record(r);
}

static void look(const jabulghi_record *r, size_t length) {
    int16_t s[6] = {7, 7, 7, 7, 7, 7};
    uint32_t number = jabulghi_look(r, s, length);
    printf("look %" PRIu32 ": %d %d %d %d %d %d, record", number, s[0], s[1], s[2], s[3], s[4], s[5]);
    show_record(r);
}

static void skip(jabulghi_record *r, uint64_t n) {
    uint32_t number = jabulghi_skip(r, n);
    printf("skip %" PRIu64 " %" PRIu32 ": record", n, number);
    show_record(r);
}

static void ask(jabulghi_record *r, uint32_t n) {
    uint32_t number = jabulghi_ask(r, n);
    printf("ask %" PRIu32 " %" PRIu32 ": record", n, number);
    show_record(r);
}

static void take(jabulghi_record *r, size_t length) {
    int16_t s[6] = {7, 7, 7, 7, 7, 7};
    uint32_t number = jabulghi_take(r, s, length);
    printf("take %" PRIu32 ": %d %d %d %d %d %d, record", number, s[0], s[1], s[2], s[3], s[4], s[5]);
    show_record(r);
}

static void give_up(jabulghi_record *r) {
    uint32_t number = jabulghi_give_up(r);
    printf("give up %" PRIu32 ": record", number);
    show_record(r);
}

/* A request from asking to its take or its end, with each call that waits. */
static void requests(void) {
    jabulghi_record r, unfit = {{2, 8, 16}, {2, 8, 15}, 0, 9, 2}, elsewhere = {{2, 8, 16}, {2, 8, 16}, 0, 7, 2000000},
                       full;
    seed(&r, 2);
    take(&r, 0);
    give_up(&r);
    ask(&r, 1000001);
    ask(&r, 2);
    ask(&r, 1);
    pair(&r);
    block(&r, 3);
    skip(&r, 0);
    look(&r, 4);
    take(&r, 5);
    take(&r, 2);
    take(&r, 4);
    block(&r, 2);
    ask(&r, 0);
    give_up(&r);
    ask(&r, 0);
    take(&r, 0);
    ask(&unfit, 1);
    take(&unfit, 4);
    give_up(&unfit);
    take(&elsewhere, 6);
    look(&elsewhere, 2);
    give_up(&elsewhere);
    elsewhere.asked = 5;
    block(&elsewhere, 2);
    ask(&elsewhere, 1);
    full = r;
    full.count = UINT64_MAX - 1;
    ask(&full, 2);
    ask(&full, 1);
    full.count = UINT64_MAX;
    take(&full, 2);
    give_up(&full);
}

static char text[60002];

static void list(size_t length, size_t room) {
    static uint8_t listing[JABULGHI_LISTING_ROOM];
    memset(listing, '-', sizeof listing);
    uint32_t line = 7;
    size_t written = 7;
    uint32_t number = jabulghi_list((const uint8_t *)text, length, listing, room, &line, &written);
    printf("list %" PRIu32 ": line %" PRIu32 ", length %lu, listing '%.*s'\n", number, line, (unsigned long)written,
           (int)written + 3, (char *)listing);
}

static void list_text(const char *lines, size_t room) {
    strcpy(text, lines);
    list(strlen(text), room);
}

static void list_shots(int shots) {
    char *end = text + sprintf(text, "(seeds (a 2 8 16) (b 2 8 16))\n(sigma 0 0)\n");
    for (int j = 0; j < shots; j++) end += sprintf(end, "(shot A B %d %d)\n", j, j);
    uint32_t line = 7;
    size_t written = 7;
    static uint8_t listing[JABULGHI_LISTING_ROOM];
    uint32_t number =
        jabulghi_list((const uint8_t *)text, (size_t)(end - text), listing, sizeof listing, &line, &written);
    printf("%d shots %" PRIu32 ": line %" PRIu32 ", length %lu\n", shots, number, line, (unsigned long)written);
}

/* A window's numbers, its first four places and its last, and how many others are not 0. */
static void show_window(const char *call, uint32_t number, const jabulghi_window *w) {
    int others = 0;
    for (int j = 4; j < 4095; j++) others += w->places[j] != 0;
    printf("%s %" PRIu32 ": N %" PRIu32 ", held %" PRIu32 ", place %" PRIu32 ", sums %" PRId64 " %" PRId64, call,
           number, w->size, w->held, w->place, w->sum, w->squares);
    printf(", places %d %d %d %d .. %d, %d others\n", w->places[0], w->places[1], w->places[2], w->places[3],
           w->places[4095], others);
}

static void make(jabulghi_window *w, uint32_t n) {
    uint32_t number = jabulghi_window_make(w, n);
    show_window("make", number, w);
}

static void push(jabulghi_window *w, int16_t sample) {
    uint32_t number = jabulghi_window_push(w, sample);
    show_window("push", number, w);
}

static void push_all(jabulghi_window *w, const int16_t *samples, size_t length) {
    uint32_t number = jabulghi_window_push_all(w, samples, length);
    show_window("push all", number, w);
}

/* A window of 3 that is full and has this sum, or this many held, or this place. */
static jabulghi_window full(uint32_t held, uint32_t place, int64_t sum) {
    jabulghi_window w;
    memset(&w, 0, sizeof w);
    w.size = 3;
    w.held = held;
    w.place = place;
    w.sum = sum;
    w.squares = 21;
    w.places[0] = 1;
    w.places[1] = 2;
    w.places[2] = 4;
    w.places[4095] = 9;
    return w;
}

static void windows(void) {
    static jabulghi_window w, marked;
    const int16_t samples[5] = {5, -6, 7, -32768, 32767};
    const int64_t limit = (int64_t)1 << 42;
    memset(&marked, 7, sizeof marked);
    w = marked;
    make(&w, 0);
    w = marked;
    make(&w, 4097);
    w = marked;
    make(&w, 4096);
    push_all(&w, samples, 5);
    make(&w, 3);
    push(&w, 100);
    push_all(&w, samples, 0);
    push_all(&w, samples, 1);
    push_all(&w, samples, 5);
    push(&w, -1);
    w = full(3, 1, 7);
    push(&w, 8);
    w = full(4, 1, 7);
    push(&w, 8);
    w = full(3, 3, 7);
    push_all(&w, samples, 0);
    w = full(3, 1, limit);
    push(&w, 3);
    push(&w, 3);
    push(&w, 3);
    w = full(3, 1, -limit - 1);
    push(&w, 3);
    w = full(3, 1, limit - 1);
    push_all(&w, samples, 4);
}

#define DATA "*data normal from to tape compass clino\n"
static void legs(const char *lines, size_t room) {
    static uint8_t shots[64];
    memset(shots, '-', sizeof shots);
    size_t line = 7, written = 7;
    uint32_t number = jabulghi_legs((const uint8_t *)lines, strlen(lines), shots, room, &line, &written);
    printf("legs %" PRIu32 ": line %lu, length %lu, shots '%.*s'\n", number, (unsigned long)line,
           (unsigned long)written, (int)written + 3, (char *)shots);
}

#define SHOTS 500
#define SEEDS "(seeds (a 2 8 16) (b 2 8 16))\n"
#define EXAMPLE SEEDS "(sigma 4 10)\n(shot A1 A2 12345 4500)\n(shot A2 A3 9000 65530)\n"

/* A set of marks is its members with nothing between them. */
typedef char marks_have_960_bytes[sizeof(jabulghi_marks) == 960 ? 1 : -1];
typedef char lengths_come_after[offsetof(jabulghi_marks, length) == 64 ? 1 : -1];
typedef char names_come_after[offsetof(jabulghi_marks, names) == 128 ? 1 : -1];
typedef char records_come_last[offsetof(jabulghi_marks, records) == 320 ? 1 : -1];

static jabulghi_marks set;

/* The used places, their names and their counts. */
static void show_set(void) {
    for (int j = 0; j < 16; j++) {
        if (set.used[j]) printf(" %d %.12s %" PRIu64 ";", j, (const char *)set.names[j], set.records[j].count);
    }
    printf("\n");
}

static void save(const jabulghi_record *r, const char *name) {
    printf("save %s %" PRIu32 ":", name, jabulghi_marks_save(&set, r, name, strlen(name)));
    show_set();
}

static void return_to(jabulghi_record *r, const char *name) {
    uint32_t number = jabulghi_marks_return(&set, r, name, strlen(name));
    printf("return %s %" PRIu32 ": count %" PRIu64 "\n", name, number, r->count);
}

static void drop(const char *name) {
    printf("drop %s %" PRIu32 ":", name, jabulghi_marks_drop(&set, name, strlen(name)));
    show_set();
}

static void marks(void) {
    jabulghi_record r, a = {{2, 7, 16}, {2, 8, 15}, 7, 1, 0}, b = {{2, 8, 16}, {2, 8, 15}, 7, 1, 0};
    int16_t first[4], again[4];
    char name[] = "S0";
    jabulghi_seed(2, 8, 16, 5, 60, 700, &r);
    save(&r, "D7");
    jabulghi_block(&r, first, 4);
    save(&r, "ABCDEFGHIJKL");
    return_to(&r, "D7");
    jabulghi_block(&r, again, 4);
    printf("the same samples: %s\n", memcmp(first, again, sizeof first) ? "no" : "yes");
    save(&r, "");
    save(&r, "ABCDEFGHIJKLM");
    save(&r, "D-7");
    return_to(&r, "E1");
    return_to(&r, "E 1");
    drop("E1");
    drop("");
    save(&a, "");
    return_to(&b, "");
    jabulghi_ask(&r, 1);
    save(&r, "");
    return_to(&r, "D7");
    jabulghi_give_up(&r);
    for (; name[1] < '9'; name[1]++) jabulghi_marks_save(&set, &r, name, 2);
    for (name[0] = 'T'; name[1] > '4'; name[1]--) jabulghi_marks_save(&set, &r, name, 2);
    save(&r, "T2");
    jabulghi_skip(&r, 5);
    save(&r, "D7");
    drop("S0");
    save(&r, "T2");
    return_to(&r, "T9");
}

static void miss(const char *t) {
    int64_t sums[2] = {7, 7}, mm[2] = {7, 7};
    uint32_t line = 7;
    uint32_t number = jabulghi_misclosure((const uint8_t *)t, strlen(t), sums, mm, &line);
    printf("misclosure %" PRIu32 ": line %" PRIu32 ", east %" PRId64 ", north %" PRId64, number, line, sums[0],
           sums[1]);
    printf(", in mm %" PRId64 " and %" PRId64 "\n", mm[0], mm[1]);
}

static void interval(const char *t) {
    int64_t sums[4] = {7, 7, 7, 7}, mm[4] = {7, 7, 7, 7};
    uint32_t line = 7;
    uint32_t number = jabulghi_intervals((const uint8_t *)t, strlen(t), sums, mm, &line);
    printf("intervals %" PRIu32 ": line %" PRIu32 ", sums", number, line);
    for (int i = 0; i < 4; i++) printf(" %" PRId64, sums[i]);
    printf(", in mm");
    for (int i = 0; i < 4; i++) printf(" %" PRId64, mm[i]);
    printf("\n");
}

int main(void) {
    jabulghi_record r = {{7, 7, 7}, {7, 7, 7}, 7, 7, 7}, unfit = {{2, 8, 16}, {2, 8, 15}, UINT64_MAX, 0, 0},
                    both_unfit = {{2, 7, 16}, {2, 8, 15}, 7, 0, 0};
    seed(&r, 1);
    seed(&r, 2);
    sample(1, 49152);
    sample((uint64_t)1 << 40, 24576);
    sample((uint64_t)1 << 48, 65536);
    sample(0, 65536);
    pair(&r);
    pair(&unfit);
    look(&r, 4);
    block(&r, 0);
    block(&r, 4);
    look(&r, 5);
    look(&unfit, 5);
    block(&r, 5);
    block(&unfit, 5);
    skip(&r, 0);
    skip(&r, 1);
    skip(&r, 1000);
    skip(&r, UINT64_MAX);
    skip(&unfit, 0);
    skip(&unfit, UINT64_MAX);
    skip(&both_unfit, 1);
    skip(&r, UINT64_MAX - r.count - 2);
    look(&r, 6);
    look(&r, 4);
    block(&r, 6);
    block(&r, 2);
    block(&r, 4);
    pair(&r);
    pair(&r);
    block(&r, 0);
    block(&r, 5);
    block(&r, 2);
    skip(&r, 0);
    skip(&r, 1);
    requests();
    marks();
    list_text(EXAMPLE, JABULGHI_LISTING_ROOM);
    list_text(EXAMPLE, 51);
    list_text(SEEDS "(sigma 4 10)\n", 24);
    list_text(SEEDS "(sigma 4 10)", JABULGHI_LISTING_ROOM);
    list_text(SEEDS "(sigma 4 1001)\n", JABULGHI_LISTING_ROOM);
    list_text(SEEDS SEEDS, JABULGHI_LISTING_ROOM);
    list_text(SEEDS, JABULGHI_LISTING_ROOM);
    list_text("(seeds (a 1 8 16) (b 2 8 16))\n(sigma 4 10)\n", JABULGHI_LISTING_ROOM);
    list_shots(SHOTS);
    list_shots(SHOTS + 1);
    memset(text, '\n', 60001);
    list(60000, JABULGHI_LISTING_ROOM);
    list(60001, JABULGHI_LISTING_ROOM);
    windows();
    legs("; c\n" DATA "A B 1000 360 0\n", 26);
    legs("; c\n" DATA "A B 1000 360 0\n", 20);
    legs("; c\n" DATA "A B 1000 360 0", 26);
    legs("; c\n" DATA "A B 1000.001 360 0\n", 26);
    legs("; c\n", 26);
    miss("FROM TO MM STEP\nA1 A2 12356 4527\nA2 A3 9011 8\nEND 2\n");
    miss("FROM TO MM STEP\nA1 A2 12356 40000\nA2 A1 12356 7232\nEND 2\n");
    miss("FROM TO MM STEP\nA1 A2 1 32768\nEND 1\n");
    miss("FROM TO MM STEP\nEND 0\n");
    miss("FROM TO MM STEP\nA1 A2 5 5\nEND 2\n");
    miss("FROM TO MM STEP\nA1 A2 5 5\n");
    miss("FROM TO MM STEP\nEND 0\nEND 0\n");
    miss("FROM TO MM STEP\nA1 A2 5 5\na2 A3 5 5\nEND 2\n");
    miss("FROM TO MM STEP\nA1 A2 5 5\na2 A3 1008243 5\nEND 2\n");
    miss("FROM TO LOW HIGH STEP\nEND 0\n");
    interval("FROM TO LOW HIGH STEP\nA1 A2 10 20 0\nA2 A3 3 5 16384\nA3 A4 7 9 32768\nA4 A1 1 2 49152\nEND 4\n");
    interval("FROM TO LOW HIGH STEP\nEND 0\n");
    interval("FROM TO LOW HIGH STEP\nA1 A2 5 1008243 5\nEND 1\n");
    interval("FROM TO LOW HIGH STEP\nA1 A2 5 5 5\na2 A3 5 4 5\nEND 2\n");
    interval("FROM TO LOW HIGH STEP\nA1 A2 5 5 5\na2 A3 4 5 5\nEND 2\n");
    interval("FROM TO LOW HIGH STEP\nFROM TO MM STEP\nEND 0\n");
    interval("FROM TO MM STEP\nEND 0\n");
}
