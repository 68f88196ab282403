/* Where the output goes, and what went wrong with it. A write that fails is never silent. */
#include "command.h"
#include <errno.h>
#include <fcntl.h>
#include <stdarg.h>
#include <stdio.h>
#include <stdlib.h>
#include <string.h>
#include <sys/stat.h>
#include <unistd.h>

/* Standard output, or a file that was named: it is written beside, as NAME.part, and takes its name once it is whole; a
 * device or a pipe is written as it stands. A descriptor below 0 is not open yet. */
typedef struct {
    const char *name;
    char *beside;
    int descriptor;
    bool wrote;
} destination;
static destination output = {"standard output", NULL, STDOUT_FILENO, false};

void put_error_values(const char *format, va_list values) { vfprintf(stderr, format, values); }

void put_error(const char *format, ...) {
    va_list values;
    va_start(values, format);
    put_error_values(format, values);
    va_end(values);
}

void write_to(const option *given) {
    if (given->value == NULL || strcmp(given->value, "-") == 0) return;
    output.name = given->value;
    output.descriptor = -1;
}

/* The name that a file has while it is written. */
static bool name_beside(void) {
    size_t room = strlen(output.name) + sizeof ".part";
    output.beside = malloc(room);
    if (output.beside != NULL) snprintf(output.beside, room, "%s.part", output.name);
    return output.beside != NULL;
}

static int open_output(void) {
    output.wrote = true;
    if (output.descriptor >= 0) return DONE;
    unsigned mode = system_mode(output.name);
    if (mode != 0 && !system_writable(output.name)) return trouble(output.name, strerror(errno));
    if (mode != 0 && !S_ISREG(mode)) {
        output.descriptor = system_open(output.name, O_WRONLY);
    } else if (name_beside()) {
        output.descriptor = system_open(output.beside, O_WRONLY | O_CREAT | O_TRUNC);
    }
    return output.descriptor < 0 ? trouble(output.name, strerror(errno)) : DONE;
}

/* Writes all of the bytes; a pipe that nobody reads any more has had enough of them. */
int put(const void *bytes, size_t length) {
    const char *rest = bytes;
    int status = open_output();
    while (status == DONE && length > 0) {
        ssize_t written = system_write(output.descriptor, rest, length);
        if (written < 0 && errno == EINTR) continue;
        if (written < 0) return errno == EPIPE ? ENOUGH : trouble(output.name, strerror(errno));
        rest += written;
        length -= (size_t)written;
    }
    return status;
}

/* Writes a short line, as printf would. */
int put_words(const char *format, ...) {
    char line[256];
    va_list values;
    va_start(values, format);
    int length = vsnprintf(line, sizeof line, format, values);
    va_end(values);
    return put(line, (size_t)length);
}

/* Closes the output where something was written, since some devices tell a failed write only then, and gives a file its
 * name; what is not whole goes. */
int finish(int status) {
    bool named = strcmp(output.name, "standard output") != 0, unsound = status == UNSOUND;
    if (unsound) status = DONE;
    if (status == DONE && named && !output.wrote) status = open_output();
    if (status == ENOUGH) status = DONE;
    if (output.wrote && status == DONE && close(output.descriptor) != 0) status = trouble(output.name, strerror(errno));
    if (output.beside != NULL && status == DONE && system_rename(output.beside, output.name) != 0)
        status = trouble(output.name, strerror(errno));
    if (output.beside != NULL && status != DONE) system_remove(output.beside);
    return status == DONE && unsound ? REFUSED : status;
}

/* Writes a file besides the output, whole or not at all. */
int put_file(const char *name, const void *bytes, size_t length) {
    destination elsewhere = output;
    output = (destination){name, NULL, -1, false};
    int status = finish(put(bytes, length));
    output = elsewhere;
    return status;
}

int put_grown(const char *name, growing *written) {
    int status;
    if (written->failed) status = trouble(name == NULL ? output.name : name, strerror(ENOMEM));
    else status = name == NULL ? put(written->bytes, written->length) : put_file(name, written->bytes, written->length);
    free(written->bytes);
    *written = (growing){NULL, 0, 0, false};
    return status;
}
