/* Arrays and texts that grow. */
#include "growing.h"
#include <stdio.h>
#include <stdlib.h>
#include <string.h>

/* `array` is the place of a pointer to elements of that size; its room doubles at least. */
bool room_for(size_t more, void *array, size_t count, size_t *room, size_t size) {
    void *bytes, *grown;
    if (*room - count >= more) return true;
    size_t wanted = 2 * *room + more + 64;
    memcpy(&bytes, array, sizeof bytes);
    grown = realloc(bytes, wanted * size);
    if (grown == NULL) return false;
    memcpy(array, &grown, sizeof grown);
    *room = wanted;
    /* cppcheck-suppress memleak ; it is where `array` points */
    return true;
}

void add_values(growing *to, const char *format, va_list values) {
    va_list again;
    va_copy(again, values);
    int length = vsnprintf(NULL, 0, format, values);
    to->failed = to->failed || length < 0 || !room_for((size_t)length + 1, &to->bytes, to->length, &to->room, 1);
    if (!to->failed) to->length += (size_t)vsnprintf(to->bytes + to->length, (size_t)length + 1, format, again);
    va_end(again);
}

void add_bytes(growing *to, const void *bytes, size_t length) {
    if (length == 0) return;
    to->failed = to->failed || !room_for(length, &to->bytes, to->length, &to->room, 1);
    if (to->failed) return;
    memcpy(to->bytes + to->length, bytes, length);
    to->length += length;
}

void add(growing *to, const char *format, ...) {
    va_list values;
    va_start(values, format);
    add_values(to, format, values);
    va_end(values);
}

void add_quoted(growing *to, const char *text, size_t length) {
    add(to, "\"");
    for (size_t j = 0; j < length; j++) {
        if (text[j] == '"' || text[j] == '\\') add(to, "\\%c", text[j]);
        else if ((unsigned char)text[j] < 32) add(to, "\\u%04x", text[j]);
        else add(to, "%c", text[j]);
    }
    add(to, "\"");
}

void add_string(growing *to, const char *text) { add_quoted(to, text, strlen(text)); }
