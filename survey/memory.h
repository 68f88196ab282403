/* A survey with the memory that it owns. */
#ifndef MEMORY_H
#define MEMORY_H

#include "reader.h"

struct kept {
    struct survey survey; /* the first, so that a survey's place is that of all of it */
    struct chunk *chunks;
};

void free_chunks(struct kept *k);

#endif
