/* What the files of this folder share. */
#ifndef BINDINGS_INSIDE_H
#define BINDINGS_INSIDE_H

#include "../command/check.h"
#include "../command/tolerance.h"
#include "judge.h"

struct jabulghi_case {
    bool checks, loose, taken, drawn;
    char *words, **options;
    size_t word_length;
    text *files;
    size_t file_count, file_room;
    uint32_t random[6];
    checked check;
    task task;
    growing texts[CASE_TEXTS];
};

/* texts.c: what was said as JSON, and the legs of a cave in plan. */
void list_messages(const jabulghi_case *c, growing *to);
void list_legs(const checked *c, growing *to);

#endif
