/* Reads a survey, and frees it. */
#include "memory.h"
#include <stdlib.h>
#include <string.h>

void survey_free(struct survey *s) {
    if (s == NULL) return;
    free(s->files), free(s->includes), free(s->legs), free(s->stations), free(s->equates), free(s->sights),
        free(s->fixes), free(s->trips), free(s->notes), free(s->troubles);
    free_chunks((struct kept *)s);
    free(s);
}

/* What a file is that has troubles, or no leg, decides what is said of it. */
static void judge_text(reader *r) {
    if (r->s->trouble_count == 0 && r->s->leg_count > 0) return;
    trouble_kind other = other_format(r, &r->s->files[0]);
    if (other != TROUBLES && (r->s->trouble_count > 0 || other != IS_PROSE)) {
        keep_only(r, other);
        return;
    }
    if (r->s->trouble_count == 0) complain_at(r, 0, 0, NO_LEG, NO_WORD);
}

static void read_all(reader *r, const char *name, const uint8_t *bytes, size_t length) {
    struct survey *s = r->s;
    s->troubles = malloc(SURVEY_MOST_TROUBLES * sizeof *s->troubles);
    r->no_memory = s->troubles == NULL;
    if (r->no_memory || !set_up_names(r) || !set_up_settings(r)) return;
    if (add_file(r, name, bytes, length) == SURVEY_NONE) return;
    read_file(r, 0);
    name_stations(r);
    tell_notes(r);
    judge_text(r);
}

struct survey *survey_read(const char *name, const uint8_t *bytes, size_t length, survey_fetch *fetch, void *context) {
    struct kept *k = calloc(1, sizeof *k);
    reader *r = calloc(1, sizeof *r);
    if (k != NULL && r != NULL) {
        r->s = &k->survey;
        r->fetch = fetch;
        r->context = context;
        read_all(r, name, bytes, length);
        free(r->scopes), free(r->names), free(r->slots);
    }
    if (k == NULL || r == NULL || r->no_memory) {
        if (k != NULL) survey_free(&k->survey);
        k = NULL;
    }
    free(r);
    return k == NULL ? NULL : &k->survey;
}
