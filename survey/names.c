/* Names of stations: a tree of labels, and which of them are one station. */
#include "reader.h"
#include <stdlib.h>
#include <string.h>

static bool is_letter_or_digit(uint8_t byte) {
    return (byte >= '0' && byte <= '9') || (byte >= 'A' && byte <= 'Z') || (byte >= 'a' && byte <= 'z');
}

static bool is_name_sign(const reader *r, uint8_t byte) {
    return is_letter_or_digit(byte) || byte > 127 || has_sign(r, byte, SIGN_NAMES);
}

static uint8_t letter_as(uint8_t byte, letter_case as) {
    if (as == AS_LOWER && byte >= 'A' && byte <= 'Z') return (uint8_t)(byte + 32);
    if (as == AS_UPPER && byte >= 'a' && byte <= 'z') return (uint8_t)(byte - 32);
    return byte;
}

/* ---- The tree */

/* Fowler, Noll and Vo's hash of a key and what it stands below. */
static size_t hash_of(size_t above, part key) {
    uint64_t hash = 14695981039346656037u ^ (above * 0x9e3779b97f4a7c15u);
    for (size_t j = 0; j < key.length; j++) hash = (hash ^ key.bytes[j]) * 1099511628211u;
    return (size_t)(hash ^ hash >> 32);
}

/* The slot of a name, or the free one where it belongs; a free slot has 0, which is the root. */
static size_t slot_of(const reader *r, size_t above, part key) {
    size_t at = hash_of(above, key) & (r->slot_count - 1);
    for (; r->slots[at] != 0; at = (at + 1) & (r->slot_count - 1)) {
        const name_node *n = &r->names[r->slots[at]];
        if (n->above == above && n->key.length == key.length && memcmp(n->key.bytes, key.bytes, key.length) == 0) break;
    }
    return at;
}

/* At most half of the slots are taken. */
static bool room_for_slot(reader *r) {
    if (2 * (r->name_count + 1) < r->slot_count) return true;
    size_t more = r->slot_count == 0 ? 1024 : r->slot_count * 2, *slots = calloc(more, sizeof *slots);
    if (slots == NULL) return r->no_memory = true, false;
    free(r->slots);
    r->slots = slots;
    r->slot_count = more;
    for (size_t j = 1; j < r->name_count; j++) r->slots[slot_of(r, r->names[j].above, r->names[j].key)] = j;
    return true;
}

bool set_up_names(reader *r) {
    if (!room_for_one(r, &r->names, 0, &r->name_room, sizeof *r->names)) return false;
    r->names[r->name_count++] = (name_node){0, 0, SURVEY_NONE, NO_WORD, NO_WORD};
    return true;
}

/* A label as UTF-8: that of a text which is none is taken for Latin-1. */
static part as_utf8(const reader *r, part label, uint8_t *bytes) {
    part made = {bytes, 0};
    for (size_t j = 0; j < label.length; j++) {
        uint8_t byte = label.bytes[j];
        if (r->latin1 && byte > 127) {
            bytes[made.length++] = (uint8_t)(0xc0 | byte >> 6);
            byte = (uint8_t)(0x80 | (byte & 0x3f));
        }
        bytes[made.length++] = byte;
    }
    return made;
}

static size_t new_name(reader *r, size_t above, part key, part label) {
    bool alike = memcmp(key.bytes, label.bytes, key.length) == 0;
    char *written = copy_of(r, label), *compared = alike ? written : copy_of(r, key);
    if (written == NULL || compared == NULL) return NO_NAME;
    size_t length = r->names[above].length + (above != 0) + label.length;
    r->names[r->name_count] =
        (name_node){above, length, SURVEY_NONE, {(uint8_t *)compared, key.length}, {(uint8_t *)written, label.length}};
    return r->name_count++;
}

/* The name of a label below another, a new one where there was none. */
static size_t label_below(reader *r, size_t above, part label) {
    uint8_t bytes[2 * MOST_NAME], compared[2 * MOST_NAME];
    const settings *s = now(r);
    if (label.length > MOST_NAME) return complain(r, LONG_NAME, label), NO_NAME;
    if (!room_for_slot(r) || !room_for_one(r, &r->names, r->name_count, &r->name_room, sizeof *r->names))
        return NO_NAME;
    part written = as_utf8(r, (part){label.bytes, label.length < s->truncate ? label.length : s->truncate}, bytes);
    for (size_t j = 0; j < written.length; j++) compared[j] = letter_as(bytes[j], s->as);
    part key = {compared, written.length};
    size_t at = slot_of(r, above, key);
    if (r->slots[at] != 0) return r->slots[at];
    if (r->names[above].length + (above != 0) + written.length > MOST_NAME)
        return complain(r, LONG_NAME, label), NO_NAME;
    size_t made = new_name(r, above, key, written);
    if (made != NO_NAME) r->slots[at] = made;
    return made;
}

/* The label from a place of a word up to the next separator or the word's end. */
static part label_at(const reader *r, part word, size_t from) {
    size_t at = from;
    while (at < word.length && is_name_sign(r, word.bytes[at]) && !has_sign(r, word.bytes[at], SIGN_SEPARATOR)) at++;
    return (part){word.bytes + from, at - from};
}

/* The name that a word says below another, or below where the file began; NO_NAME where it says none. */
size_t name_below(reader *r, size_t scope, part word) {
    bool rooted = word.length > 0 && has_sign(r, word.bytes[0], SIGN_ROOT);
    size_t at = rooted, found = rooted ? r->at.root : scope;
    if (rooted && at < word.length && has_sign(r, word.bytes[at], SIGN_SEPARATOR)) at++;
    do {
        part label = label_at(r, word, at);
        at += label.length;
        if (label.length == 0 || (at < word.length && !has_sign(r, word.bytes[at], SIGN_SEPARATOR)))
            return complain(r, BAD_NAME, word), NO_NAME;
        found = label_below(r, found, label);
    } while (found != NO_NAME && at++ < word.length);
    return found;
}

/* ---- Stations */

/* The station that a word names; SURVEY_NONE where it names none. */
size_t station_named(reader *r, part word) {
    struct survey *s = r->s;
    size_t found = name_below(r, now(r)->prefix, word);
    if (found == NO_NAME) return SURVEY_NONE;
    name_node *n = &r->names[found];
    if (n->station != SURVEY_NONE) return n->station;
    if (!room_for_one(r, &s->stations, s->station_count, &r->station_room, sizeof *s->stations)) return SURVEY_NONE;
    n->station = s->station_count;
    s->stations[s->station_count] =
        (struct survey_station){NULL, s->station_count, r->at.file, r->at.number, SURVEY_NONE, false};
    return s->station_count++;
}

/* The first station that is the same. */
size_t same_as(struct survey *s, size_t station) {
    struct survey_station *all = s->stations;
    while (all[station].same != station) station = all[station].same = all[all[station].same].same;
    return station;
}

void make_same(reader *r, size_t one, size_t other) {
    size_t a = same_as(r->s, one), b = same_as(r->s, other);
    struct survey_station *all = r->s->stations;
    size_t first = a < b ? a : b, second = a < b ? b : a;
    if (all[first].fix == SURVEY_NONE) all[first].fix = all[second].fix;
    all[second].same = first;
}

/* The labels from the root on, with points between. */
char *full_name(reader *r, size_t named) {
    size_t length = r->names[named].length;
    char *made = allot(r, length + 1);
    if (made == NULL) return NULL;
    char *at = made + length;
    for (*at = '\0'; named != 0; named = r->names[named].above) {
        if (*at != '\0') *--at = '.';
        at -= r->names[named].label.length;
        memcpy(at, r->names[named].label.bytes, r->names[named].label.length);
    }
    return made;
}

/* Gives each station its name, and `same` for all that are. */
void name_stations(reader *r) {
    for (size_t j = 1; j < r->name_count; j++) {
        size_t station = r->names[j].station;
        if (station == SURVEY_NONE) continue;
        r->s->stations[station].name = full_name(r, j);
        r->s->stations[station].same = same_as(r->s, station);
    }
}
