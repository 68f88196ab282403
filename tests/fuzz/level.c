/* `jabulghi level` on any bytes (tests/fuzz/run).
 *
 * Each text is read without a choice of its loop and with one. What is written is a text that the library's call takes;
 * a refusal writes nothing and says at least a line. */
#include "level.h"
#include <stdlib.h>
#include <string.h>

static void hold(bool fact) {
    if (!fact) abort();
}

static void hold_strict(const growing *strict) {
    size_t line, length, room = 3 * strict->length + 1;
    uint8_t *shots = malloc(room);
    hold(shots != NULL);
    hold(jabulghi_legs((const uint8_t *)strict->bytes, strict->length, shots, room, &line, &length) == JABULGHI_OK);
    hold(length > 0);
    free(shots);
}

static void level_once(const uint8_t *bytes, size_t length, uint64_t loop) {
    text survey = {"cave.svx", malloc(length), length};
    hold(survey.bytes != NULL);
    memcpy(survey.bytes, bytes, length);
    growing strict = {NULL, 0, 0, false}, said = {NULL, 0, 0, false};
    int status = level_text(&survey, NULL, loop, length % 2 == 0, &strict, &said);
    hold(status == DONE || (status == REFUSED && strict.length == 0));
    hold(said.length > 0 && said.bytes[said.length - 1] == '\n');
    if (status == DONE) hold_strict(&strict);
    free(survey.bytes), free(strict.bytes), free(said.bytes);
}

int LLVMFuzzerTestOneInput(const uint8_t *bytes, size_t length);
int LLVMFuzzerTestOneInput(const uint8_t *bytes, size_t length) {
    if (length == 0) return 0;
    level_once(bytes, length, ANY_LOOP);
    level_once(bytes, length, length % 4);
    return 0;
}
