/* `jabulghi level`: an ordinary survey as the strict text that `jabulghi legs` takes. Not proved. */
#include "level.h"
#include "cave.h"
#include <stdlib.h>

int level(int count, char **words) {
    option options[] = {{"--loop", false, NULL}, {"-o", false, NULL}};
    uint64_t loop = ANY_LOOP;
    text source;
    growing strict = {NULL, 0, 0, false}, said = {NULL, 0, 0, false};
    int status = read_options(&count, words, options, 2);
    if (status == DONE && count > 1) status = wrong(ONE_FILE, words[1]);
    if (status == DONE) status = number_of(&options[0], ANY_LOOP - 1, &loop);
    if (status != DONE) return status;
    write_to(&options[1]);
    status = read_text(count == 0 ? "-" : words[0], &source);
    if (status != DONE) return status;
    status = level_text(&source, fetch_of(&source), loop, false, &strict, &said);
    if (status != TROUBLE && said.length > 0) put_error("%s", said.bytes);
    if (status == DONE) status = put(strict.bytes, strict.length);
    free(source.bytes), free(strict.bytes), free(said.bytes);
    return status;
}
