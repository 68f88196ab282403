/* The reader of surveys on any bytes (tests/fuzz/run).
 *
 * What it gives is whole: every index is in range, every reading is where it says that it stands, a leg's vector
 * follows from its readings, and a survey that is refused has a sentence. A file that it includes is a part of the same
 * bytes. */
#include "../../survey/survey.h"
#include <math.h>
#include <stdlib.h>
#include <string.h>

typedef struct {
    const uint8_t *bytes;
    size_t length, fetched;
} given;

static void hold(bool fact) {
    if (!fact) abort();
}

static bool fetch(void *context, const char *name, uint8_t **bytes, size_t *length) {
    given *all = context;
    size_t skip = strlen(name) % (all->length + 1);
    if (strlen(name) % 3 == 0 || ++all->fetched > 5) return false;
    *length = all->length - skip;
    *bytes = malloc(*length + 1);
    hold(*bytes != NULL);
    memcpy(*bytes, all->bytes + skip, *length);
    return true;
}

static void hold_reading(const struct survey *s, const struct survey_reading *one) {
    size_t length = strlen(one->text);
    hold(one->file < s->file_count && one->at + length <= s->files[one->file].length);
    hold(memcmp(s->files[one->file].bytes + one->at, one->text, length) == 0);
    hold(one->line > 0 && (int)one->what < SURVEY_QUANTITIES && !isnan(one->value) && one->sd >= 0);
    if (one->form <= SURVEY_QUADRANT) hold(survey_value_of(one, one->written) == one->value);
}

static void hold_leg(const struct survey *s, const struct survey_leg *leg) {
    double *value = malloc((leg->reading_count + 1) * sizeof *value), vector[3];
    hold(value != NULL && leg->from < s->station_count && leg->to < s->station_count && leg->from != leg->to &&
         leg->trip < s->trip_count);
    hold(leg->shots > 0 && leg->reading_count % leg->shots == 0);
    for (size_t j = 0; j < leg->reading_count; j++) {
        hold_reading(s, &leg->readings[j]);
        value[j] = leg->readings[j].value;
    }
    survey_vector_of(leg, value, vector);
    double size = 1e-9 * (1 + fabs(leg->length) + fabs(leg->up));
    hold(!(fabs(vector[0] - leg->east) > size) && !(fabs(vector[1] - leg->north) > size) &&
         !(fabs(vector[2] - leg->up) > size));
    hold(leg->bearing >= 0 && leg->bearing < 360);
    free(value);
}

static void hold_stations(const struct survey *s) {
    for (size_t j = 0; j < s->station_count; j++) {
        const struct survey_station *one = &s->stations[j];
        hold(one->name != NULL && one->name[0] != '\0' && one->same <= j && s->stations[one->same].same == one->same);
        hold(one->file < s->file_count && (one->fix == SURVEY_NONE || one->fix < s->fix_count));
    }
    for (size_t j = 0; j < s->equate_count; j++)
        hold(s->stations[s->equates[j].one].same == s->stations[s->equates[j].other].same);
    for (size_t j = 0; j < s->sight_count; j++)
        hold(s->sights[j].from < s->station_count && s->sights[j].to < s->station_count);
}

static void hold_messages(const struct survey *s, const struct survey_message *all, size_t count) {
    for (size_t j = 0; j < count; j++)
        hold(all[j].file < s->file_count && all[j].text != NULL && all[j].text[0] != '\0' &&
             strchr(all[j].text, '\n') == NULL);
}

int LLVMFuzzerTestOneInput(const uint8_t *bytes, size_t length);
int LLVMFuzzerTestOneInput(const uint8_t *bytes, size_t length) {
    given all = {bytes, length, 0};
    struct survey *s = survey_read("cave/cave.svx", bytes, length, length % 16 == 0 ? fetch : NULL, &all);
    hold(s != NULL);
    hold(s->trouble_count > 0 || s->leg_count > 0);
    hold(s->told_count == (s->trouble_count < SURVEY_MOST_TROUBLES ? s->trouble_count : SURVEY_MOST_TROUBLES));
    for (size_t j = 0; j < s->leg_count; j++) hold_leg(s, &s->legs[j]);
    hold_stations(s);
    hold_messages(s, s->notes, s->note_count);
    hold_messages(s, s->troubles, s->told_count);
    survey_free(s);
    return 0;
}
