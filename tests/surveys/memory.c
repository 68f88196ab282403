/* memory FILE..: reads each survey again and again, the first, second, third .. request for memory being refused, until
 * none is: no survey and no leak, or all of it. Linked with --wrap for malloc, calloc and realloc. */
#include "../../survey/survey.h"
#include <stdio.h>
#include <stdlib.h>

static long left = -1;

void *__real_malloc(size_t size);
void *__real_calloc(size_t count, size_t size);
void *__real_realloc(void *old, size_t size);
void *__wrap_malloc(size_t size);
void *__wrap_calloc(size_t count, size_t size);
void *__wrap_realloc(void *old, size_t size);

static bool is_refused(void) { return left >= 0 && left-- == 0; }

void *__wrap_malloc(size_t size) { return is_refused() ? NULL : __real_malloc(size); }
void *__wrap_calloc(size_t count, size_t size) { return is_refused() ? NULL : __real_calloc(count, size); }
void *__wrap_realloc(void *old, size_t size) { return is_refused() ? NULL : __real_realloc(old, size); }

int main(int count, char **words) {
    static uint8_t bytes[1 << 20];
    long tried = 0;
    for (int j = 1; j < count; j++) {
        FILE *file = fopen(words[j], "rb");
        if (file == NULL) return 2;
        size_t length = fread(bytes, 1, sizeof bytes, file);
        fclose(file);
        for (long refused = 0;; refused++, tried++) {
            left = refused;
            struct survey *s = survey_read("cave.svx", bytes, length, NULL, NULL);
            bool whole = left >= 0;
            left = -1;
            survey_free(s);
            if (whole && s == NULL) return 1;
            if (whole) break;
            if (s != NULL) return printf("%s: request %ld was refused, and a survey was made\n", words[j], refused), 1;
        }
    }
    printf("surveys: %ld requests for memory refused\n", tried);
    return 0;
}
