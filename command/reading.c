/* Reads a whole text into memory. */
#include "command.h"
#include <errno.h>
#include <fcntl.h>
#include <stdio.h>
#include <string.h>
#include <unistd.h>

/* More is not read, so that endless input ends; every text that the library accepts as a job or a listing is far
 * shorter. */
#define MOST_BYTES ((size_t)64 << 20)

/* Reads to the end. */
static int read_all(int from, text *all) {
    size_t room = 0;
    for (;;) {
        if (all->length == room && !room_for(65536, &all->bytes, all->length, &room, 1))
            return trouble(all->name, strerror(ENOMEM));
        ssize_t got = read(from, all->bytes + all->length, room - all->length);
        if (got < 0 && errno == EINTR) continue;
        if (got < 0) return trouble(all->name, strerror(errno));
        if (got == 0) return DONE;
        all->length += (size_t)got;
        if (all->length > MOST_BYTES) return wrong(TOO_MUCH, all->name);
    }
}

int read_text(const char *name, text *all) {
    *all = (text){name, NULL, 0};
    if (strcmp(name, "-") == 0) {
        all->name = "standard input";
        if (system_terminal(STDIN_FILENO)) note(READING, SYSTEM_END_OF_INPUT);
        return read_all(STDIN_FILENO, all);
    }
    int from = system_open(name, O_RDONLY);
    if (from < 0) return trouble(name, strerror(errno));
    int status = read_all(from, all);
    close(from);
    return status;
}

int read_named(int count, char **words, text *all) {
    return count > 1 ? wrong(ONE_FILE, words[1]) : read_text(count == 0 ? "-" : words[0], all);
}
