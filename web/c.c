/* What the command's sources call of C's library, for WebAssembly: memory, strings, sorting and reading. */
#include "c.h"

/* ---- Memory: what is taken last is given back first; a block that is freed earlier waits for those above it. */

/* WebAssembly's memory grows by pages of so many bytes. */
#define PAGE 65536u
extern uint8_t __heap_base;

/* Stands before the bytes of a block, which have so many, and knows the block below it. */
typedef struct block {
    struct block *below;
    size_t size;
    bool freed;
} block;
enum { HEAD = 16 };
static block *top;

static size_t end_of_top(void) {
    size_t end = top == NULL ? (size_t)&__heap_base : (size_t)top + HEAD + top->size;
    return (end + 15) & ~(size_t)15;
}

static bool has_room(size_t end) {
    size_t have = __builtin_wasm_memory_size(0) * (size_t)PAGE;
    return end <= have || __builtin_wasm_memory_grow(0, (end - have + PAGE - 1) / PAGE) != SIZE_MAX;
}

void *malloc(size_t size) {
    size_t at = end_of_top(), end = at + HEAD + size;
    if (end < size || end < at || end > SIZE_MAX - PAGE || !has_room(end)) return NULL;
    block *made = (block *)at;
    *made = (block){top, size, false};
    top = made;
    return (uint8_t *)made + HEAD;
}

void free(void *old) {
    if (old == NULL) return;
    ((block *)(void *)((uint8_t *)old - HEAD))->freed = true;
    while (top != NULL && top->freed) top = top->below;
}

void *calloc(size_t count, size_t size) {
    if (size > 0 && count > SIZE_MAX / size) return NULL;
    void *made = malloc(count * size);
    return made == NULL ? NULL : memset(made, 0, count * size);
}

/* The last block grows where it stands. */
void *realloc(void *old, size_t size) {
    if (old == NULL) return malloc(size);
    block *before = (block *)(void *)((uint8_t *)old - HEAD);
    if (before == top && size < SIZE_MAX - PAGE - (size_t)old) {
        if (!has_room((size_t)old + size)) return NULL;
        return before->size = size, old;
    }
    void *made = malloc(size);
    if (made == NULL) return NULL;
    memcpy(made, old, before->size < size ? before->size : size);
    return free(old), made;
}

void *memcpy(void *to, const void *from, size_t length) {
    for (size_t j = 0; j < length; j++) ((uint8_t *)to)[j] = ((const uint8_t *)from)[j];
    return to;
}

void *memset(void *to, int byte, size_t length) {
    for (size_t j = 0; j < length; j++) ((uint8_t *)to)[j] = (uint8_t)byte;
    return to;
}

void *memmove(void *to, const void *from, size_t length) {
    if ((size_t)to <= (size_t)from) return memcpy(to, from, length);
    for (size_t j = length; j > 0; j--) ((uint8_t *)to)[j - 1] = ((const uint8_t *)from)[j - 1];
    return to;
}

void *memchr(const void *bytes, int wanted, size_t length) {
    const uint8_t *at = bytes, *end = at + length;
    while (at < end && *at != (uint8_t)wanted) at++;
    return at < end ? (void *)at : NULL;
}

int memcmp(const void *one, const void *other, size_t length) {
    const uint8_t *a = one, *b = other;
    size_t at = 0;
    while (at < length && a[at] == b[at]) at++;
    return at < length ? a[at] - b[at] : 0;
}

/* ---- Strings */

size_t strlen(const char *string) {
    size_t length = 0;
    while (string[length] != '\0') length++;
    return length;
}

int strcmp(const char *one, const char *other) {
    while (*one != '\0' && *one == *other) one++, other++;
    return (uint8_t)*one - (uint8_t)*other;
}

int strncmp(const char *one, const char *other, size_t length) {
    while (length > 1 && *one != '\0' && *one == *other) one++, other++, length--;
    return length == 0 ? 0 : (uint8_t)*one - (uint8_t)*other;
}

char *strchr(const char *string, int wanted) {
    while (*string != '\0' && *string != (char)wanted) string++;
    return *string == (char)wanted ? (char *)string : NULL;
}

char *strcpy(char *to, const char *from) { return memcpy(to, from, strlen(from) + 1); }

size_t strspn(const char *string, const char *accepted) {
    size_t length = 0;
    while (string[length] != '\0' && strchr(accepted, string[length]) != NULL) length++;
    return length;
}

size_t strcspn(const char *string, const char *refused) {
    size_t length = 0;
    while (string[length] != '\0' && strchr(refused, string[length]) == NULL) length++;
    return length;
}

char *strerror(int number) { return number == ENOMEM ? (char *)"Cannot allocate memory" : (char *)""; }

/* ---- Sorting: merges, so that what is equal keeps its order */

typedef int compared(const void *one, const void *other);

static void merge(uint8_t *bytes, size_t middle, size_t count, size_t size, compared *compare, uint8_t *room) {
    size_t left = 0, right = middle;
    for (size_t j = 0; j < count; j++) {
        bool first = right == count || (left < middle && compare(bytes + left * size, bytes + right * size) <= 0);
        memcpy(room + j * size, bytes + (first ? left++ : right++) * size, size);
    }
    memcpy(bytes, room, count * size);
}

static void sort(uint8_t *bytes, size_t count, size_t size, compared *compare, uint8_t *room) {
    if (count < 2) return;
    sort(bytes, count / 2, size, compare, room);
    sort(bytes + count / 2 * size, count - count / 2, size, compare, room);
    merge(bytes, count / 2, count, size, compare, room);
}

/* Without room nothing is sorted by halves: each goes down to its place. */
void qsort(void *bytes, size_t count, size_t size, compared *compare) {
    uint8_t *room = malloc(count * size), *at = bytes;
    if (room != NULL) sort(bytes, count, size, compare, room);
    for (size_t j = 1; room == NULL && j < count; j++) {
        for (size_t k = j; k > 0 && compare(at + (k - 1) * size, at + k * size) > 0; k--) {
            for (size_t byte = 0; byte < size; byte++) {
                uint8_t swapped = at[k * size + byte];
                at[k * size + byte] = at[(k - 1) * size + byte];
                at[(k - 1) * size + byte] = swapped;
            }
        }
    }
    free(room);
}

/* ---- Reading: names (%12s), numbers of 32 bits (%u), blanks, and all else as it stands */

static bool is_blank(char sign) { return sign == ' ' || (sign >= '\t' && sign <= '\r'); }
static bool is_digit(char sign) { return sign >= '0' && sign <= '9'; }

static const char *read_word(const char *at, size_t most, char *word) {
    size_t length = 0;
    while (length < most && at[length] != '\0' && !is_blank(at[length])) word[length] = at[length], length++;
    word[length] = '\0';
    return length == 0 ? NULL : at + length;
}

static const char *read_whole(const char *at, uint32_t *number) {
    *number = 0;
    if (!is_digit(*at)) return NULL;
    for (; is_digit(*at); at++) *number = *number * 10 + (uint32_t)(*at - '0');
    return at;
}

static const char *skip_blanks(const char *at) {
    while (is_blank(*at)) at++;
    return at;
}

int sscanf(const char *at, const char *format, ...) {
    va_list values;
    int read = 0;
    va_start(values, format);
    for (; *format != '\0' && at != NULL; format++) {
        if (is_blank(*format)) {
            at = skip_blanks(at);
        } else if (*format != '%') {
            at = *at == *format ? at + 1 : NULL;
        } else {
            size_t most = 0;
            for (format++; is_digit(*format); format++) most = most * 10 + (size_t)(*format - '0');
            at = skip_blanks(at);
            at = *format == 's' ? read_word(at, most, va_arg(values, char *))
                                : read_whole(at, va_arg(values, uint32_t *));
            read += at != NULL;
        }
    }
    va_end(values);
    return read;
}

/* ---- What the compiler asks for: a product of 128 bits, by halves of 32 */

__int128 __multi3(__int128 one, __int128 other) {
    uint64_t a = (uint64_t)one, b = (uint64_t)other, low_a = (uint32_t)a, low_b = (uint32_t)b;
    uint64_t low = low_a * low_b, middle = (a >> 32) * low_b + (low >> 32),
             other_middle = low_a * (b >> 32) + (uint32_t)middle;
    uint64_t high = (a >> 32) * (b >> 32) + (middle >> 32) + (other_middle >> 32) + (uint64_t)(one >> 64) * b +
                    a * (uint64_t)(other >> 64);
    return (__int128)((unsigned __int128)high << 64 | (other_middle << 32 | (uint32_t)low));
}
