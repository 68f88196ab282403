/* What was said, and a cave's legs in plan, for a program. */
#include "inside.h"
#include <stdlib.h>
#include <string.h>

/* ---- Messages */

/* A message: a line of what was said, and those after it that are indented or go on with "and 3 more". */
struct message {
    const char *file, *option, *text;
    size_t file_length, option_length, length, line;
};

static bool goes_on(const char *line) { return line[0] == ' ' || strncmp(line, "and ", 4) == 0; }

/* The end of the message that starts here, its last line feed excluded. */
static const char *end_of(const char *at) {
    const char *end = strchr(at, '\n');
    while (end != NULL && goes_on(end + 1)) end = strchr(end + 1, '\n');
    return end == NULL ? at + strlen(at) : end;
}

/* Takes a name for the file's, where the message begins with it and no longer one is taken. */
static void try_name(struct message *m, const char *name, size_t length) {
    if (length > m->file_length && strncmp(m->text, name, length) == 0 && m->text[length] == ':')
        m->file_length = length;
}

/* The names of files are those given, and those that were found under another: the first of each two lines. */
static void find_file(const jabulghi_case *c, struct message *m) {
    const char *found = c->texts[CASE_FOUND].length == 0 ? "" : c->texts[CASE_FOUND].bytes;
    for (size_t j = 0; j < c->file_count; j++) try_name(m, c->files[j].name, strlen(c->files[j].name));
    for (bool first = true; *found != '\0'; first = !first, found += strcspn(found, "\n") + 1) {
        if (first) try_name(m, found, strcspn(found, "\n"));
    }
}

/* "NAME:" or "NAME:LINE:" */
static void take_file(const jabulghi_case *c, struct message *m) {
    find_file(c, m);
    if (m->file_length == 0) return;
    m->file = m->text;
    m->text += m->file_length + 1;
    size_t digits = strspn(m->text, "0123456789");
    if (digits == 0 || m->text[digits] != ':') return;
    for (size_t j = 0; j < digits; j++) m->line = m->line * 10 + (size_t)(m->text[j] - '0');
    m->text += digits + 1;
}

static struct message message_at(const jabulghi_case *c, const char *at) {
    static const char SPEAKER[] = "jabulghi: ";
    struct message m = {"", "", at, 0, 0, 0, 0};
    const char *end = end_of(at);
    if (strncmp(at, SPEAKER, sizeof SPEAKER - 1) == 0) m.text += sizeof SPEAKER - 1;
    else take_file(c, &m);
    m.text += *m.text == ' ';
    const char *colon = strchr(m.text, ':');
    if (m.text[0] == '-' && m.text[1] == '-' && colon != NULL && colon < end) {
        m.option = m.text;
        m.option_length = (size_t)(colon - m.text);
        m.text = colon + 1 + (colon[1] == ' ');
    }
    m.length = (size_t)(end - m.text);
    return m;
}

void list_messages(const jabulghi_case *c, growing *to) {
    const char *at = c->texts[CASE_SAID].length == 0 ? "" : c->texts[CASE_SAID].bytes;
    add(to, "[");
    for (bool first = true; *at != '\0'; first = false) {
        struct message m = message_at(c, at);
        add(to, first ? "{\"file\": " : ",\n{\"file\": ");
        add_quoted(to, m.file, m.file_length);
        add(to, ", \"line\": %zu, \"option\": ", m.line);
        add_quoted(to, m.option, m.option_length);
        add(to, ", \"text\": ");
        add_quoted(to, m.text, m.length);
        add(to, "}");
        at = end_of(at);
        at += *at == '\n';
    }
    add(to, "]\n");
}

/* ---- The plan */

static void add_leg(const struct judge_cave *cave, const struct judge_edge *e, const struct judge_vector *at,
                    growing *to) {
    const struct survey *s = cave->survey;
    const struct survey_leg *leg = &s->legs[e->index];
    const struct judge_passage *p = e->passage == JUDGE_NONE ? NULL : &cave->passages[e->passage];
    add(to, "{\"file\": ");
    add_string(to, s->files[leg->file].name);
    add(to, ", \"line\": %zu, \"from\": ", leg->line);
    add_string(to, s->stations[leg->from].name);
    add(to, ", \"to\": ");
    add_string(to, s->stations[leg->to].name);
    add(to, ", \"ends\": [%.3f, %.3f, %.3f, %.3f], \"loops\": [", at[e->from].east, at[e->from].north, at[e->to].east,
        at[e->to].north);
    for (size_t k = 0; p != NULL && k < p->loops; k++)
        add(to, k == 0 ? "%zu" : ", %zu", cave->passage_loops[p->at + k].of + 1);
    add(to, "]}");
}

void list_legs(const checked *c, growing *to) {
    const struct judge_cave *cave = c->cave;
    struct judge_vector *at = malloc((cave->survey->station_count + 1) * sizeof *at);
    bool first = true;
    to->failed = to->failed || at == NULL || !judge_places(cave, at);
    add(to, "[");
    for (size_t j = 0; !to->failed && j < cave->edge_count; j++) {
        if (cave->edges[j].kind != JUDGE_LEG) continue;
        add(to, first ? "" : ",\n");
        add_leg(cave, &cave->edges[j], at, to);
        first = false;
    }
    add(to, "]\n");
    free(at);
}
