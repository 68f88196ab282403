/* clock FILE: whether the reader takes a survey in less than a second of the processor's time. */
#include "../../survey/survey.h"
#include <stdio.h>
#include <stdlib.h>
#include <time.h>

int main(int count, char **words) {
    static uint8_t bytes[1 << 24];
    FILE *file = count > 1 ? fopen(words[1], "rb") : NULL;
    if (file == NULL) return 2;
    size_t length = fread(bytes, 1, sizeof bytes, file);
    fclose(file);
    clock_t start = clock();
    struct survey *s = survey_read(words[1], bytes, length, NULL, NULL);
    double seconds = (double)(clock() - start) / CLOCKS_PER_SEC;
    if (s == NULL || s->trouble_count > 0) return 2;
    printf("surveys: %zu legs in %.2f s\n", s->leg_count, seconds);
    survey_free(s);
    return seconds < 1 ? 0 : 1;
}
