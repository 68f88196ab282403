/* dump FILE: what the reader of surveys makes of a file, a line for each thing, fields separated by tabs. */
#include "../../survey/survey.h"
#include <stdio.h>
#include <stdlib.h>
#include <string.h>

static bool fetch(void *context, const char *name, uint8_t **bytes, size_t *length) {
    FILE *file = fopen(name, "rb");
    size_t room = 1 << 16, got = 0;
    (void)context;
    if (file == NULL) return false;
    *length = 0;
    *bytes = malloc(room);
    while (*bytes != NULL && (got = fread(*bytes + *length, 1, room - *length, file)) > 0) {
        *length += got;
        if (*length == room) *bytes = realloc(*bytes, room *= 2);
    }
    bool failed = ferror(file) != 0 || *bytes == NULL;
    fclose(file);
    if (failed) free(*bytes);
    return !failed;
}

static void put_readings(const struct survey_leg *l) {
    for (size_t j = 0; j < l->reading_count; j++) {
        const struct survey_reading *one = &l->readings[j];
        printf("\t%d:%s:%d:%.9g", (int)one->what, one->text, one->decimals, one->value);
    }
}

static void put_leg(const struct survey *s, const struct survey_leg *l) {
    printf("leg\t%s:%zu\t%s\t%s\t%d\t%d\t%.9f\t%.9f\t%.9f\t%.9f\t%.9f\t%.9f", s->files[l->file].name, l->line,
           s->stations[l->from].name, s->stations[l->to].name, (int)l->style, (int)l->slope_by, l->length, l->bearing,
           l->slope, l->east, l->north, l->up);
    printf("\t%.9g %.9g %.9g %.9g %.9g %u\t%s%s\t%zu", l->sd.tape, l->sd.compass, l->sd.clino, l->sd.depth,
           l->sd.position, l->sd.given, l->surface ? "s" : "", l->duplicate ? "d" : "", l->trip);
    put_readings(l);
    putchar('\n');
}

static void put_messages(const struct survey *s, const char *kind, const struct survey_message *all, size_t count) {
    for (size_t j = 0; j < count; j++)
        printf("%s\t%s:%zu: %s\n", kind, s->files[all[j].file].name, all[j].line, all[j].text);
}

static void put_stations(const struct survey *s) {
    for (size_t j = 0; j < s->station_count; j++) {
        const struct survey_station *same = &s->stations[s->stations[j].same];
        printf("station\t%s\t%s\t%s%s\n", s->stations[j].name, same->name, same->fix == SURVEY_NONE ? "free" : "fixed",
               s->stations[j].entrance ? "\tentrance" : "");
    }
    for (size_t j = 0; j < s->equate_count; j++) {
        printf("equate\t%s:%zu\t%s\t%s\n", s->files[s->equates[j].file].name, s->equates[j].line,
               s->stations[s->equates[j].one].name, s->stations[s->equates[j].other].name);
    }
    for (size_t j = 0; j < s->sight_count; j++)
        printf("sight\t%s\t%s\n", s->stations[s->sights[j].from].name, s->stations[s->sights[j].to].name);
    for (size_t j = 0; j < s->fix_count; j++)
        printf("fix\t%s\t%.9g\t%.9g\t%.9g\n", s->stations[s->fixes[j].station].name, s->fixes[j].east,
               s->fixes[j].north, s->fixes[j].up);
    for (size_t j = 0; j < s->trip_count; j++)
        printf("trip\t%zu\t%s\t%s\t%s\n", j, s->trips[j].name, s->trips[j].date, s->trips[j].team);
}

int main(int count, char **words) {
    uint8_t *bytes;
    size_t length;
    if (count < 2 || !fetch(NULL, words[1], &bytes, &length)) return 2;
    struct survey *s = survey_read(words[1], bytes, length, count > 2 ? NULL : fetch, NULL);
    free(bytes);
    if (s == NULL) return 3;
    for (size_t j = 0; j < s->leg_count; j++) put_leg(s, &s->legs[j]);
    put_stations(s);
    put_messages(s, "note", s->notes, s->note_count);
    put_messages(s, "trouble", s->troubles, s->told_count);
    printf("counts\t%zu\t%zu\t%zu\n", s->leg_count, s->station_count, s->trouble_count);
    int status = s->trouble_count > 0;
    survey_free(s);
    return status;
}
