/* The words after a command's name: its options, and what is left. */
#include "command.h"
#include <string.h>

/* The option that a word names, or NULL; inside is the value that stands in the same word: after an equals sign, or
 * after a letter. */
static option *named(const char *word, option *options, size_t size, const char **inside) {
    for (size_t j = 0; j < size; j++) {
        size_t length = strlen(options[j].name);
        if (strncmp(word, options[j].name, length) != 0) continue;
        *inside = word[length] == '\0' ? NULL : word + length + (word[length] == '=');
        if (*inside == NULL || word[length] == '=' || length == 2) return &options[j];
    }
    return NULL;
}

/* One option; next is the word after it, or NULL, and used says whether it was taken as the value. */
static int take(option *taken, const char *inside, const char *next, bool *used) {
    *used = !taken->alone && inside == NULL;
    if (taken->value != NULL) return wrong(GIVEN_TWICE, taken->name);
    if (taken->alone && inside != NULL) return wrong(TAKES_NO_VALUE, taken->name);
    if (*used && next == NULL) return wrong(LACKS_VALUE, taken->name);
    taken->value = taken->alone ? taken->name : *used ? next : inside;
    return DONE;
}

int read_options(int *count, char **words, option *options, size_t size) {
    int left = 0;
    bool all_files = false, used = false;
    for (int at = 0; at < *count; at += 1 + used) {
        char *word = words[at];
        const char *inside;
        used = false;
        if (!all_files && strcmp(word, "--") == 0) {
            all_files = true;
        } else if (all_files || word[0] != '-' || word[1] == '\0') {
            words[left++] = word;
        } else {
            option *found = named(word, options, size, &inside);
            if (found == NULL) return wrong(NO_SUCH_OPTION, word);
            int status = take(found, inside, at + 1 < *count ? words[at + 1] : NULL, &used);
            if (status != DONE) return status;
        }
    }
    *count = left;
    return DONE;
}
