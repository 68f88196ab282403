/* A line of seeds from the system's randomness. */
#include "command.h"
#include <inttypes.h>

/* Numbers that the library refuses as seeds, fewer than one draw in a hundred million, are drawn again. */
int draw_seeds(uint32_t n[6]) {
    jabulghi_record record;
    int status;
    do {
        status = system_random(n);
    } while (status == DONE && jabulghi_seed(n[0], n[1], n[2], n[3], n[4], n[5], &record) != JABULGHI_OK);
    return status;
}

int seeds(int count, char **words) {
    uint32_t n[6];
    option options[] = {{"-o", false, NULL}};
    int status = read_options(&count, words, options, 1);
    if (status == DONE && count > 0) status = wrong(NO_FILE, words[0], "seeds");
    if (status == DONE) status = draw_seeds(n);
    if (status != DONE) return status;
    write_to(&options[0]);
    return put_words(SEEDS_LINE "\n", n[0], n[1], n[2], n[3], n[4], n[5]);
}
