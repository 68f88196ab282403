/* The sentences of refusals in jabulghi.wasm: the command's own table, with its tests of the bad line. jabulghi.js
 * calls this function. */
#include "../command/sentences.c"
#include "../command/legs_cause.c"

/* The sentence for a refusal of a text, a line of it and a number; "refused" where the table has none. */
const char *jabulghi_sentence(subject about, uint32_t number, size_t line, uint8_t *bytes, size_t length) {
    text refused = {"", bytes, length};
    bad_line bad = line_of(&refused, line);
    return sentence_of(about, number, &bad);
}
