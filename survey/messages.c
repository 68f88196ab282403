/* What the reader says, each sentence once. */
#include "reader.h"
#include <string.h>

const part NO_WORD = {NULL, 0};

static const char *const TROUBLES_SAID[TROUBLES] = {
    [ZERO_BYTE] = "byte 0: save it as plain text, ASCII or UTF-8",
    [BAD_NAME] = "name is empty, or has a sign that *set names does not allow",
    [LONG_NAME] = "name of more than 1000 bytes with its scopes",
    [DEEP_SCOPES] = "more than 1000 *begin inside each other",
    [OPEN_BEGIN] = "*begin has no *end in this file",
    [OTHER_END] = "*end has another name than its *begin",
    [NO_BEGIN] = "*end without *begin in this file",
    [NO_STYLE] = "no such style of data",
    [NO_READING] = "no such reading",
    [OTHER_READING] = "data of this style has no such reading",
    [TWICE] = "reading stands twice on the data line",
    [FEW_READINGS] = "data line lacks a reading that its style needs",
    [MANY_READINGS] = "more than 32 readings on the data line",
    [NOT_LAST] = "ignoreall is the last reading of a line",
    [FEW_FIELDS] = "leg has fewer fields than the data line",
    [MANY_FIELDS] = "leg has more fields than the data line",
    [DECIMAL_COMMA] = "write the number with a decimal point: a comma separates fields",
    [SAME_STATION] = "leg from a station to itself",
    [TWO_SPLAYS] = "leg between two points without a name",
    [BAD_NUMBER] = "no number",
    [BAD_TAPE] = "tape is no number",
    [NO_TAPE] = "tape is left out",
    [BAD_COMPASS] = "compass is no number",
    [NO_COMPASS] = "compass is left out on a leg that is not plumbed",
    [BAD_QUADRANT] = "compass is no quadrant bearing such as S34E",
    [BAD_CLINO] = "clino is no number, and none of -, level, up and down",
    [MIXED_CLINOS] = "clino and backclino are not of one kind",
    [BAD_DIRECTION] = "direction is F or B",
    [LACKS_STATION] = "leg lacks the station that it leads to",
    [NO_QUANTITY] = "no such quantity",
    [NO_UNIT] = "no such unit",
    [WRONG_UNIT] = "unit is not one of this quantity",
    [ZERO_FACTOR] = "factor is zero",
    [MIXED_QUANTITIES] = "lengths and angles in one list",
    [DECLINATION_SCALE] = "declination has no scale",
    [NO_DECLINATION] = "*declination takes a number and a unit, or auto",
    [LACKS_NUMBER] = "number is missing",
    [FIXED_ELSEWHERE] = "station is fixed elsewhere already",
    [FIXES_DIFFER] = "stations that are fixed at different places are equated",
    [FIXED_NOWHERE] = "second *fix without coordinates",
    [BAD_FIX] = "*fix takes three coordinates, and then one, two, three or six numbers for their errors",
    [LACKS_FILE_NAME] = "*include lacks the name of a file",
    [NO_FILE] = "file is not found",
    [NO_FILES_HERE] = "file is not here: other files cannot be read with this text",
    [CYCLE] = "file includes itself",
    [DEEP_FILES] = "more than 100 files that include each other",
    [MANY_FILES] = "more than 10000 *include",
    [BAD_CASE] = "*case takes tolower, toupper or preserve",
    [BAD_INFER] = "*infer takes plumbs, equates or exports, and then on or off",
    [BAD_FLAG] = "*flags takes duplicate, splay and surface, each with or without not",
    [BAD_ALIAS] = "*alias takes station - or station - ..",
    [BAD_SET] = "*set has no such item",
    [SET_LETTER] = "*set takes signs that are no letters or digits",
    [BAD_TRUNCATE] = "*truncate takes a whole number or off",
    [BAD_DATE] = "date is no date such as 1987.07.27",
    [FEW_EQUATES] = "*equate takes two stations or more",
    [MORE_WORDS] = "more words than the command takes",
    [NO_COMMAND_WORD] = "* without a command",
    [OTHER_COMMAND] = "no such command",
    [NO_LEG] = "no leg",
    [IS_UTF16] = "this is UTF-16: save it as plain text, ASCII or UTF-8",
    [IS_3D] = "this is a processed survey (.3d): give the .svx file that it was made from",
    [IS_THERION] = "this is a Therion file: export it as Survex, or rewrite it as .svx",
    [IS_COMPASS] = "this is a Compass survey (.dat): convert it to Survex first, for example with CaveConverter",
    [IS_COMPASS_PROJECT] =
        "this is a Compass project (.mak): convert its surveys to Survex first, for example with CaveConverter",
    [IS_WALLS] = "this is a Walls file: export it as Survex first",
    [IS_POCKETTOPO] =
        "this is a PocketTopo file: export it as Survex, or convert it first, for example with CaveConverter",
    [IS_TABLE] =
        "this is a table: put ; before its heading, and before it a line *data normal from to tape compass clino",
    [IS_ARCHIVE] = "this is an archive or an office document: take the survey out of it and save it as plain text",
    [IS_PAGE] = "this is a web page or XML: save the survey itself as plain text",
    [IS_PROSE] = "this is no Survex survey: it has neither a command such as *begin nor a leg such as 1 2 12.40 214 -3",
};

/* Notes that count, the number put before; and those that are told with their lines, the word put behind. */
static const struct {
    bool counts;
    const char *one, *several;
} NOTES_SAID[NOTES] = {
    [SPLAYS] = {true, "splay is left out", "splays are left out"},
    [SIGHTS] = {true, "leg without readings (nosurvey) joins its stations, and is no leg",
                "legs without readings (nosurvey) join their stations, and are no legs"},
    [SURFACE_LEGS] = {true, "leg is flagged surface, and is kept", "legs are flagged surface, and are kept"},
    [DUPLICATE_LEGS] = {true, "leg is flagged duplicate, and is kept", "legs are flagged duplicate, and are kept"},
    [PASSAGE_LINES] = {true, "line of passage data is skipped", "lines of passage data are skipped"},
    [SOLVES] = {true, "*solve is skipped: all loops are taken together",
                "*solve are skipped: all loops are taken together"},
    [AUTO_DECLINATION] = {true,
                          "*declination auto is not computed: bearings stay magnetic, so give each trip its "
                          "declination where trips are years apart",
                          "*declination auto are not computed: bearings stay magnetic, so give each trip its "
                          "declination where trips are years apart"},
    [CONVERTED_FIXES] = {true, "fixed point is left out: coordinates of another system than *cs out are not converted",
                         "fixed points are left out: coordinates of another system than *cs out are not converted"},
    [LARGE_COMPASS] = {false, "compass is not from 0 to 360", NULL},
    [LARGE_CLINO] = {false, "clino is steeper than plumb", NULL},
    [NEGATIVE_TAPE] = {false, "tape is negative", NULL},
    [SHORT_TAPE] = {false, "tape is shorter than the change in depth", NULL},
    [COMPASSES_DIFFER] = {false, "compass and backcompass differ by more than three standard deviations", NULL},
    [CLINOS_DIFFER] = {false, "clino and backclino differ by more than three standard deviations", NULL},
    [TAPES_DIFFER] = {false, "tape and backtape differ by more than three standard deviations", NULL},
    [COMPASS_ON_PLUMB] = {false, "compass on a plumbed leg is not used", NULL},
    [MILS] = {false, "mils are taken for grads, as Survex does", NULL},
    [FIXED_TWICE] = {false, "station is fixed there already", NULL},
    [EQUATED_TO_ITSELF] = {false, "station is equated to itself", NULL},
};

/* ---- Words of a survey in a sentence */

enum { MOST_SHOWN = 40 };

/* How many bytes make a sign of UTF-8 here; 0 where there is none that is shown. */
static size_t shown_length(const uint8_t *at, size_t length) {
    if (at[0] > 32 && at[0] < 127) return 1;
    size_t more = at[0] >= 0xf0 && at[0] < 0xf5 ? 3 : at[0] >= 0xe0 ? 2 : at[0] >= 0xc2 ? 1 : 0;
    if (at[0] >= 0xf5 || more == 0 || length <= more) return 0;
    for (size_t j = 1; j <= more; j++) {
        if ((at[j] & 0xc0) != 0x80) return 0;
    }
    return more + 1;
}

/* The first signs of a word, ? for what is none; the bytes written. */
static size_t show(char *to, part word) {
    size_t count = 0, at = 0;
    while (at < word.length && count < MOST_SHOWN) {
        size_t length = shown_length(word.bytes + at, word.length - at);
        if (length == 0) to[count++] = '?';
        for (size_t j = 0; j < length; j++) to[count++] = (char)word.bytes[at + j];
        at += length == 0 ? 1 : length;
    }
    if (at < word.length) to[count++] = '.', to[count++] = '.';
    return count;
}

/* "sentence (word)" */
static const char *with_word(reader *r, const char *sentence, part word) {
    size_t length = strlen(sentence);
    if (word.length == 0) return sentence;
    char *made = allot(r, length + MOST_SHOWN + 16);
    if (made == NULL) return sentence;
    memcpy(made, sentence, length);
    memcpy(made + length, " (", 2);
    length += 2 + show(made + length + 2, word);
    memcpy(made + length, ")", 2);
    return made;
}

/* "17 sentence" */
static const char *with_count(reader *r, size_t count, const char *sentence) {
    char number[24], *made = allot(r, strlen(sentence) + sizeof number);
    size_t at = sizeof number;
    if (made == NULL) return sentence;
    for (size_t left = count; left > 0 || at == sizeof number; left /= 10) number[--at] = (char)('0' + left % 10);
    memcpy(made, number + at, sizeof number - at);
    made[sizeof number - at] = ' ';
    memcpy(made + (sizeof number - at) + 1, sentence, strlen(sentence) + 1);
    return made;
}

/* ---- Troubles */

void complain_at(reader *r, size_t file, size_t line, trouble_kind why, part word) {
    struct survey *s = r->s;
    if (s->trouble_count++ < SURVEY_MOST_TROUBLES) {
        s->troubles[s->told_count++] = (struct survey_message){file, line, with_word(r, TROUBLES_SAID[why], word)};
    }
}

/* A line has one trouble. */
void complain(reader *r, trouble_kind why, part word) {
    if (r->bad_line) return;
    r->bad_line = true;
    complain_at(r, r->at.file, r->at.number, why, word);
}

void keep_only(reader *r, trouble_kind why) {
    r->s->trouble_count = r->s->told_count = 0;
    complain_at(r, r->at.file, 0, why, NO_WORD);
}

/* ---- Notes */

static void add_note(reader *r, size_t file, size_t line, const char *text) {
    struct survey *s = r->s;
    if (room_for_one(r, &s->notes, s->note_count, &r->note_room, sizeof *s->notes))
        s->notes[s->note_count++] = (struct survey_message){file, line, text};
}

void remark(reader *r, note_kind what, part word) {
    noted *n = &r->notes[what];
    if (n->count++ == 0) n->file = r->at.file, n->line = r->at.number;
    if (NOTES_SAID[what].counts || n->count > MOST_LISTED) return;
    add_note(r, r->at.file, r->at.number, with_word(r, NOTES_SAID[what].one, word));
}

/* The counts, and how many more there are of what was told. */
void tell_notes(reader *r) {
    for (int j = 0; j < NOTES; j++) {
        size_t count = r->notes[j].count;
        if (NOTES_SAID[j].counts && count > 0)
            add_note(r, 0, 0, with_count(r, count, count == 1 ? NOTES_SAID[j].one : NOTES_SAID[j].several));
        if (!NOTES_SAID[j].counts && count > MOST_LISTED) {
            static const char MORE[] = "lines more: ";
            char *text = allot(r, sizeof MORE + strlen(NOTES_SAID[j].one));
            if (text == NULL) return;
            memcpy(text, MORE, sizeof MORE);
            memcpy(text + sizeof MORE - 1, NOTES_SAID[j].one, strlen(NOTES_SAID[j].one) + 1);
            add_note(r, 0, 0, with_count(r, count - MOST_LISTED, text));
        }
    }
}
