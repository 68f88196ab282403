/* Every call of jabulghi.h once, as a maker uses it. Each returns a number, 0 when accepted; a device that checks none
 * but the first misses little, since a record that was accepted is refused later for its count, its note or a call's
 * own arguments alone.
 *
 *   cc calls.c $(pkg-config --cflags --libs jabulghi) -o calls
 */
#include <inttypes.h>
#include <jabulghi.h>
#include <stdio.h>
#include <string.h>

/* Two samples as noise on a shot of 12.345 m at 90 degrees (16384 of 65536 steps), with a sigma of 4 mm and of 10
 * steps. */
static void print_shot(const int16_t samples[2]) {
    double millimetres = 12345 + 4.0 * samples[0] / 2048, steps = 16384 + 10.0 * samples[1] / 2048;
    printf("%.3f mm, %.3f steps\n", millimetres, steps);
}

static void records(jabulghi_record *record) {
    int16_t pair[2], screen[6], block[6];

    /* six unrelated large numbers, as `jabulghi seeds` draws them */
    uint32_t number =
        jabulghi_seed(3770694558u, 3532774216u, 2901327257u, 4093209576u, 2137023497u, 2889436789u, record);
    if (number != JABULGHI_OK) printf("refused: %" PRIu32 "\n", number);

    jabulghi_pair(record, pair); /* one shot */
    print_shot(pair);

    jabulghi_look(record, screen, 6); /* what comes next, before the user accepts it */
    jabulghi_block(record, block, 6); /* the same, and the record moves */
    printf("looked and drew alike: %s\n", memcmp(screen, block, sizeof block) == 0 ? "yes" : "no");

    jabulghi_skip(record, 1000000000000u); /* another rig's stretch of the same stream */
    printf("%" PRIu64 " pairs handed out or skipped\n", record->count);

    jabulghi_ask(record, 3);         /* three pairs are noted, and nothing moves */
    jabulghi_take(record, block, 6); /* just two samples for each */
    jabulghi_ask(record, 3);         /* or */
    jabulghi_give_up(record);        /* the note is cleared, and nothing moves */
    printf("%" PRIu64 " pairs\n", record->count);

    jabulghi_sample(357, 0, pair); /* the two samples of a k and a v of one's own */
    printf("%d %d\n", pair[0], pair[1]);
}

/* The same in units of 1/8192, for converters of 18 bits. */
static void eighteen_bits(jabulghi_record *record) {
    int32_t pair[2], block[6];
    jabulghi_pair18(record, pair);
    jabulghi_look18(record, block, 6);
    jabulghi_block18(record, block, 6);
    jabulghi_ask(record, 3);
    jabulghi_take18(record, block, 6);
    jabulghi_sample18(357, 0, pair);
    printf("%" PRId32 " %" PRId32 "\n", pair[0], pair[1]);
}

/* Drift over the latest 1000 samples: their mean, in standard deviations. */
static void drift(jabulghi_record *record) {
    static jabulghi_window window;
    int16_t block[4000];
    jabulghi_window_make(&window, 1000);
    jabulghi_block(record, block, 4000);
    jabulghi_window_push(&window, block[0]);
    jabulghi_window_push_all(&window, block + 1, 3999);
    printf("%" PRIu32 " held, mean %.4f\n", window.held, (double)window.sum / window.held / 2048);
}

/* The same stretch again, from station D7 on. */
static void again(jabulghi_record *record) {
    static jabulghi_marks marks;
    int16_t first[8], second[8];
    jabulghi_marks_save(&marks, record, "D7", 2);
    jabulghi_block(record, first, 8);
    jabulghi_marks_return(&marks, record, "D7", 2);
    jabulghi_block(record, second, 8);
    jabulghi_marks_drop(&marks, "D7", 2);
    printf("the same from D7 on: %s\n", memcmp(first, second, sizeof first) == 0 ? "yes" : "no");
}

/* From a Survex survey to how far its loop misses: the legs become shot lines, a job's first two lines come before
 * them, and its listing is added up. */
static void survey(void) {
    static const char text[] = "*data normal from to tape compass clino\nA B 10 0 0\nB C 10 120 0\nC A 10 240 0\n";
    static const char head[] =
        "(seeds (a 3770694558 3532774216 2901327257) (b 4093209576 2137023497 2889436789))\n(sigma 4 10)\n";
    static uint8_t job[1000], listing[JABULGHI_LISTING_ROOM];
    size_t start = strlen(head), length, line_of_legs;
    int64_t sums[2], millimetres[2];
    uint32_t line;
    memcpy(job, head, start);
    jabulghi_legs((const uint8_t *)text, strlen(text), job + start, sizeof job - start, &line_of_legs, &length);
    jabulghi_list(job, start + length, listing, sizeof listing, &line, &length);
    printf("%.*s", (int)length, (const char *)listing);
    jabulghi_misclosure(listing, length, sums, millimetres, &line);
    printf("east %" PRId64 " mm, north %" PRId64 " mm\n", millimetres[0], millimetres[1]);
}

/* An old tape book gives a shortest and a longest distance: how far the loop misses at least and at most. */
static void tape_book(void) {
    static const char text[] =
        "FROM TO LOW HIGH STEP\nA B 9990 10010 0\nB C 9980 10000 21845\nC A 9990 10030 43691\nEND 3\n";
    int64_t sums[4], mm[4];
    uint32_t line;
    jabulghi_intervals((const uint8_t *)text, strlen(text), sums, mm, &line);
    printf("east %" PRId64 " to %" PRId64 " mm, north %" PRId64 " to %" PRId64 " mm\n", mm[0], mm[1], mm[2], mm[3]);
}

/* A loop played three times: east and north of each run's miss. Another machine would go on from run 3. */
static void plays(void) {
    static const char job[] =
        "(seeds (a 3770694558 3532774216 2901327257) (b 4093209576 2137023497 2889436789))\n(sigma 4 10)\n"
        "(shot A B 10000 0)\n(shot B C 10000 21845)\n(shot C A 10000 43691)\n";
    int64_t misses[3][2];
    uint32_t line;
    jabulghi_play((const uint8_t *)job, strlen(job), 0, misses, 3, &line);
    for (int run = 0; run < 3; run++)
        printf("run %d: east %" PRId64 " mm, north %" PRId64 " mm\n", run, misses[run][0], misses[run][1]);
}

int main(void) {
    static jabulghi_record record;
    records(&record);
    eighteen_bits(&record);
    drift(&record);
    again(&record);
    survey();
    tape_book();
    plays();
}
