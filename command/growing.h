/* Arrays and texts that grow. */
#ifndef GROWING_H
#define GROWING_H

#include <stdarg.h>
#include <stdbool.h>
#include <stddef.h>

/* A text that grows. Once memory has run out it has failed, and nothing is added. */
typedef struct {
    char *bytes;
    size_t length, room;
    bool failed;
} growing;

/* Room for so many more elements of an array that has a count of them; words added to a text, as printf would print
 * them, or as bytes. */
bool room_for(size_t more, void *array, size_t count, size_t *room, size_t size);
void add(growing *to, const char *format, ...);
void add_bytes(growing *to, const void *bytes, size_t length);
void add_values(growing *to, const char *format, va_list values);

/* A text, or so many bytes of it, between quotation marks, as JSON has it. */
void add_string(growing *to, const char *text);
void add_quoted(growing *to, const char *text, size_t length);

#endif
