/* Memory of a survey: chunks that are freed with it, and arrays that grow. */
#include "memory.h"
#include <stdlib.h>
#include <string.h>

#define CHUNK ((size_t)1 << 16)

/* Whatever is kept is aligned as these are. */
typedef union {
    double number;
    uint64_t whole;
    void *place;
} unit;

struct chunk {
    struct chunk *next;
    size_t used, room;
    unit bytes[];
};

void free_chunks(struct kept *k) {
    for (struct chunk *one = k->chunks, *next; one != NULL; one = next) {
        next = one->next;
        free(one);
    }
}

static struct chunk *new_chunk(struct kept *k, size_t size) {
    size_t room = size > CHUNK ? size : CHUNK;
    struct chunk *made = malloc(sizeof *made + room);
    if (made == NULL) return NULL;
    *made = (struct chunk){.next = k->chunks, .room = room};
    k->chunks = made;
    return made;
}

void *allot(reader *r, size_t size) {
    struct kept *k = (struct kept *)r->s;
    size_t wanted = (size + sizeof(unit) - 1) / sizeof(unit) * sizeof(unit);
    struct chunk *from = k->chunks;
    if (from == NULL || from->room - from->used < wanted) from = new_chunk(k, wanted);
    if (from == NULL) return r->no_memory = true, NULL;
    void *taken = (uint8_t *)from->bytes + from->used;
    from->used += wanted;
    return taken;
}

/* `array` is the place of a pointer to elements of that size; its room doubles at least. */
bool room_for_one(reader *r, void *array, size_t count, size_t *room, size_t size) {
    void *bytes, *moved;
    if (count < *room) return true;
    size_t wanted = 2 * *room + 16;
    memcpy(&bytes, array, sizeof bytes);
    moved = realloc(bytes, wanted * size);
    if (moved == NULL) return r->no_memory = true, false;
    bytes = moved;
    memcpy(array, &bytes, sizeof bytes);
    *room = wanted;
    return true;
}

char *copy_of(reader *r, part of) {
    char *made = allot(r, of.length + 1);
    if (made == NULL) return NULL;
    if (of.length > 0) memcpy(made, of.bytes, of.length);
    made[of.length] = '\0';
    return made;
}
