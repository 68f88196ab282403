/* The commands on a text: legs and misses. Each reads one, makes one call and prints what it gave. */
#include "traverse.h"
#include <inttypes.h>
#include <string.h>

/* Reads the text that the words name, and notes where the output goes. */
static int named_text(int count, char **words, text *read) {
    option options[] = {{"-o", false, NULL}};
    int status = read_options(&count, words, options, 1);
    if (status != DONE) return status;
    write_to(&options[0]);
    return read_named(count, words, read);
}

/* Notes on standard error where the rows of a listing are no loop. */
static void note_loop(const text *t) {
    traverse read;
    read_shots(t->bytes, t->length, true, &read);
    is_loop(t->name, &read);
}

int legs(int count, char **words) {
    text legs_text;
    uint8_t *shots;
    size_t length;
    int status = named_text(count, words, &legs_text);
    if (status == DONE) status = shots_of(&legs_text, &shots, &length);
    return status == DONE ? put(shots, length) : status;
}

/* A listing's header decides what is worked out, one miss, or the lowest and the highest; a header that is none is
 * refused by the call. */
int misses(int count, char **words) {
    static const char BETWEEN[] = "FROM TO LOW HIGH STEP\n";
    text listing;
    int64_t sums[4], mm[4];
    uint32_t line = 0;
    int status = named_text(count, words, &listing);
    if (status != DONE) return status;
    bool between = listing.length >= strlen(BETWEEN) && memcmp(listing.bytes, BETWEEN, strlen(BETWEEN)) == 0;
    uint32_t number =
        (between ? jabulghi_intervals : jabulghi_misclosure)(listing.bytes, listing.length, sums, mm, &line);
    if (number != JABULGHI_OK) return refuse(&listing, LISTING, line, number);
    note_loop(&listing);
    if (between)
        return put_words("EAST %" PRId64 " %" PRId64 "\nNORTH %" PRId64 " %" PRId64 "\n", mm[0], mm[1], mm[2], mm[3]);
    return put_words("EAST %" PRId64 "\nNORTH %" PRId64 "\n", mm[0], mm[1]);
}
