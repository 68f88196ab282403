/* jabulghi: jobs, listings, legs, misses, tolerances, noise and seeds from the command line. It finds the command and
 * calls it. */
#include "command.h"
#include <string.h>

static const struct {
    const char *name;
    int (*run)(int count, char **words);
} COMMANDS[] = {
    {"list", list},   {"legs", legs}, {"misses", misses},       {"noise", noise}, {"seeds", seeds},
    {"level", level}, {"job", job},   {"tolerance", tolerance}, {"check", check},
};

static bool is(const char *word, const char *name, const char *letter) {
    return strcmp(word, name) == 0 || strcmp(word, letter) == 0;
}

/* Whether help is asked for among the options of a command. */
static bool asks_for_help(int count, char **words) {
    for (int j = 0; j < count && strcmp(words[j], "--") != 0; j++) {
        if (is(words[j], "--help", "-h")) return true;
    }
    return false;
}

static int run(int count, char **words) {
    if (count == 0) return wrong(NO_COMMAND);
    if (is(words[0], "--version", "-V")) return put_words("jabulghi %s\n", JABULGHI_VERSION);
    if (strcmp(words[0], "help") == 0) return help_on(count > 1 ? words[1] : NULL);
    if (asks_for_help(count, words)) return help_on(words[0]);
    for (size_t j = 0; j < sizeof COMMANDS / sizeof COMMANDS[0]; j++) {
        if (strcmp(words[0], COMMANDS[j].name) == 0) return COMMANDS[j].run(count - 1, words + 1);
    }
    return wrong(NO_SUCH_COMMAND, words[0]);
}

int main(int count, char **words) {
    system_start();
    return finish(run(count - 1, words + 1));
}
