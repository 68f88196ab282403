/* How much stack each call takes: it runs on a stack that was painted, and the bytes that lost their paint are counted,
 * from the deepest one on, less those of a call that does nothing. Prints a line for each call. Inputs are the longest,
 * and both accepted and refused ones. */
#include "jabulghi.h"
#include <stdio.h>
#include <string.h>
#include <ucontext.h>

#define PAINT 0xA5
static unsigned char stack[1 << 20] __attribute__((aligned(16)));
static ucontext_t here, there;

static jabulghi_record record, unfit;
static jabulghi_window window;
static jabulghi_marks marks;
static int16_t samples[4096];
static int32_t samples18[4096];
static uint8_t text[60001], listing[JABULGHI_LISTING_ROOM], shots[60000];
static size_t text_length, length, line_of_legs;
static uint32_t line;
static int64_t sums[4], millimetres[4], misses[3][2];

static size_t depth(void (*call)(void)) {
    size_t untouched = 0;
    memset(stack, PAINT, sizeof stack);
    getcontext(&there);
    there.uc_stack.ss_sp = stack;
    there.uc_stack.ss_size = sizeof stack;
    there.uc_link = &here;
    makecontext(&there, call, 0);
    swapcontext(&here, &there);
    while (untouched < sizeof stack && stack[untouched] == PAINT) untouched++;
    return sizeof stack - untouched;
}

static void nothing(void) {}

/* The text of the longest job, survey or listing: 500 lines between a head and an end. */
static void set_text(const char *head, const char *row, const char *end) {
    char *at = (char *)text + sprintf((char *)text, "%s", head);
    for (int j = 0; j < 500; j++) at += sprintf(at, "%s", row);
    at += sprintf(at, "%s", end);
    text_length = (size_t)(at - (char *)text);
}
static void set_job(void) {
    set_text("(seeds (a 2 8 16) (b 2 8 16))\n(sigma 1000 1000)\n", "(shot ABCDEFGHIJKL MNOPQRSTUVWX 1000000 65535)\n",
             "");
}
static void set_loop(void) {
    set_text("(seeds (a 2 8 16) (b 2 8 16))\n(sigma 1000 1000)\n", "(shot ABCDEFGHIJKL ABCDEFGHIJKL 1000000 65535)\n",
             "");
}
static void set_survey(void) {
    set_text("*data normal from to tape compass clino\n", "ABCDEFGHIJKL\tMNOPQRSTUVWX 0999.999 0359.99 0 ; c\n", "");
}
static void set_listing(void) {
    set_text("FROM TO MM STEP\n", "ABCDEFGHIJKL ABCDEFGHIJKL 1008242 65535\n", "END 500\n");
}
static void set_readings(void) {
    set_text("FROM TO LOW HIGH STEP\n", "ABCDEFGHIJKL ABCDEFGHIJKL 1008241 1008242 65535\n", "END 500\n");
}
static void set_none(void) { text_length = 0; }
static void set_records(void) {
    jabulghi_seed(3770694558u, 3532774216u, 2901327257u, 4093209576u, 2137023497u, 2889436789u, &record);
    jabulghi_seed(1, 1, 1, 1, 1, 1, &unfit);
}
static void set_request(void) {
    set_records();
    jabulghi_ask(&record, 2048);
}
static void set_window(void) { jabulghi_window_make(&window, 4096); }
static void set_marks(void) {
    set_records();
    for (char name[] = "A0"; name[0] < 'Q'; name[0]++) jabulghi_marks_save(&marks, &record, name, 2);
}

static void seed(void) { jabulghi_seed(5, 60, 700, 8000, 90000, 1000000, &record); }
static void sample(void) { jabulghi_sample(357, 24576, samples); }
static void pair(void) { jabulghi_pair(&record, samples); }
static void block(void) { jabulghi_block(&record, samples, 4096); }
static void block_refused(void) { jabulghi_block(&unfit, samples, 4096); }
static void look(void) { jabulghi_look(&record, samples, 4096); }
static void skip(void) { jabulghi_skip(&record, UINT64_MAX - 1); }
static void ask(void) { jabulghi_ask(&record, 1000000); }
static void take(void) { jabulghi_take(&record, samples, 4096); }
static void give_up(void) { jabulghi_give_up(&record); }
static void sample18(void) { jabulghi_sample18(357, 24576, samples18); }
static void pair18(void) { jabulghi_pair18(&record, samples18); }
static void block18(void) { jabulghi_block18(&record, samples18, 4096); }
static void look18(void) { jabulghi_look18(&record, samples18, 4096); }
static void take18(void) { jabulghi_take18(&record, samples18, 4096); }
static void list(void) { jabulghi_list(text, text_length, listing, sizeof listing, &line, &length); }
static void list_measured(void) {
    jabulghi_list(text, text_length, listing, 20023, &line, &length);
} /* a byte less than the longest listing */
static void legs(void) { jabulghi_legs(text, text_length, shots, sizeof shots, &line_of_legs, &length); }
static void misclosure(void) { jabulghi_misclosure(text, text_length, sums, millimetres, &line); }
static void intervals(void) { jabulghi_intervals(text, text_length, sums, millimetres, &line); }
static void play(void) { jabulghi_play(text, text_length, 1000000007, misses, 3, &line); }
static void window_make(void) { jabulghi_window_make(&window, 4096); }
static void window_push(void) { jabulghi_window_push(&window, -32768); }
static void window_push_all(void) { jabulghi_window_push_all(&window, samples, 4096); }
static void marks_save(void) { jabulghi_marks_save(&marks, &record, "P0", 2); }
static void marks_return(void) { jabulghi_marks_return(&marks, &record, "P0", 2); }
static void marks_drop(void) { jabulghi_marks_drop(&marks, "P0", 2); }

/* What is set up before a call, on the program's own stack, and the call. Two rows of a name: the deeper one counts. */
static const struct {
    const char *name;
    void (*set)(void), (*call)(void);
} CALLS[] = {
    {"jabulghi_seed", set_records, seed},
    {"jabulghi_sample", set_records, sample},
    {"jabulghi_pair", set_records, pair},
    {"jabulghi_block", set_records, block},
    {"jabulghi_block", set_records, block_refused},
    {"jabulghi_look", set_records, look},
    {"jabulghi_skip", set_records, skip},
    {"jabulghi_ask", set_records, ask},
    {"jabulghi_take", set_request, take},
    {"jabulghi_give_up", set_request, give_up},
    {"jabulghi_sample18", set_records, sample18},
    {"jabulghi_pair18", set_records, pair18},
    {"jabulghi_block18", set_records, block18},
    {"jabulghi_look18", set_records, look18},
    {"jabulghi_take18", set_request, take18},
    {"jabulghi_list", set_job, list},
    {"jabulghi_list", set_job, list_measured},
    {"jabulghi_list", set_none, list},
    {"jabulghi_legs", set_survey, legs},
    {"jabulghi_legs", set_none, legs},
    {"jabulghi_misclosure", set_listing, misclosure},
    {"jabulghi_misclosure", set_none, misclosure},
    {"jabulghi_intervals", set_readings, intervals},
    {"jabulghi_intervals", set_none, intervals},
    {"jabulghi_play", set_loop, play},
    {"jabulghi_play", set_job, play},
    {"jabulghi_window_make", set_window, window_make},
    {"jabulghi_window_push", set_window, window_push},
    {"jabulghi_window_push_all", set_window, window_push_all},
    {"jabulghi_marks_save", set_marks, marks_save},
    {"jabulghi_marks_return", set_marks, marks_return},
    {"jabulghi_marks_drop", set_marks, marks_drop},
};

int main(void) {
    size_t least = depth(nothing);
    for (size_t j = 0; j < sizeof CALLS / sizeof CALLS[0]; j++) {
        CALLS[j].set();
        printf("%s %lu\n", CALLS[j].name, (unsigned long)(depth(CALLS[j].call) - least));
    }
}
