/* Where a length is 0 its pointer may be null: every such call returns and leaves what it does with a pointer to
 * something. Prints "alike". */
#include "jabulghi.h"
#include <stdio.h>
#include <string.h>

/* What the calls returned and left. */
typedef struct {
    jabulghi_record record;
    jabulghi_window window;
    jabulghi_marks marks;
    int64_t sums[8], millimetres[8];
    size_t sizes[4];
    uint32_t lines[6], numbers[23];
} answers;

static void run(int16_t *samples, int32_t *samples18, uint8_t *bytes, int64_t (*misses)[2], answers *left) {
    static const char job[] = "(seeds (a 2 8 16) (b 2 8 16))\n(sigma 4 10)\n";
    uint32_t *number = left->numbers;
    jabulghi_record *record = &left->record;
    *number++ = jabulghi_seed(2, 8, 16, 5, 60, 700, record);
    *number++ = jabulghi_block(record, samples, 0);
    *number++ = jabulghi_look(record, samples, 0);
    *number++ = jabulghi_take(record, samples, 0);
    *number++ = jabulghi_block18(record, samples18, 0);
    *number++ = jabulghi_look18(record, samples18, 0);
    *number++ = jabulghi_take18(record, samples18, 0);
    *number++ = jabulghi_ask(record, 0);
    *number++ = jabulghi_take(record, samples, 0);
    *number++ = jabulghi_ask(record, 0);
    *number++ = jabulghi_take18(record, samples18, 0);
    *number++ = jabulghi_window_make(&left->window, 3);
    *number++ = jabulghi_window_push_all(&left->window, samples, 0);
    *number++ = jabulghi_marks_save(&left->marks, record, (const char *)bytes, 0);
    *number++ = jabulghi_marks_return(&left->marks, record, (const char *)bytes, 0);
    *number++ = jabulghi_marks_drop(&left->marks, (const char *)bytes, 0);
    *number++ = jabulghi_list(bytes, 0, bytes, 0, &left->lines[0], &left->sizes[0]);
    *number++ = jabulghi_list((const uint8_t *)job, sizeof job - 1, bytes, 0, &left->lines[1], &left->sizes[1]);
    *number++ = jabulghi_legs(bytes, 0, bytes, 0, &left->sizes[2], &left->sizes[3]);
    *number++ = jabulghi_misclosure(bytes, 0, left->sums, left->millimetres, &left->lines[2]);
    *number++ = jabulghi_intervals(bytes, 0, left->sums + 4, left->millimetres + 4, &left->lines[3]);
    *number++ = jabulghi_play(bytes, 0, 5, misses, 0, &left->lines[4]);
    *number++ = jabulghi_play((const uint8_t *)job, sizeof job - 1, 5, misses, 0, &left->lines[5]);
}

int main(void) {
    static answers with, without;
    static int16_t samples[2];
    static int32_t samples18[2];
    static uint8_t bytes[2];
    static int64_t misses[1][2];
    run(samples, samples18, bytes, misses, &with);
    run(NULL, NULL, NULL, NULL, &without);
    puts(memcmp(&with, &without, sizeof with) == 0 ? "alike" : "DIFFERENT");
}
