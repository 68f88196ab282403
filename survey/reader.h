/* What the parts of the reader share. */
#ifndef READER_H
#define READER_H

#include "survey.h"

enum {
    MOST_SCOPES = 1000,    /* *begin inside each other */
    MOST_NAME = 1000,      /* bytes of a station's name with its scopes and points */
    MOST_FIELDS = 32,      /* of a data line */
    MOST_DEEP = 100,       /* files that include each other */
    MOST_INCLUDES = 10000, /* *include in all */
    MOST_LISTED = 10,      /* notes of one kind that are told with their lines */
};

/* Bytes of a file. */
typedef struct {
    const uint8_t *bytes;
    size_t length;
} part;

/* ---- messages.c: what is said; messages.c has a sentence for each. */

typedef enum {
    ZERO_BYTE,
    BAD_NAME,
    LONG_NAME,
    DEEP_SCOPES,
    OPEN_BEGIN,
    OTHER_END,
    NO_BEGIN,
    NO_STYLE,
    NO_READING,
    OTHER_READING,
    TWICE,
    FEW_READINGS,
    MANY_READINGS,
    NOT_LAST,
    FEW_FIELDS,
    MANY_FIELDS,
    DECIMAL_COMMA,
    SAME_STATION,
    TWO_SPLAYS,
    BAD_NUMBER,
    BAD_TAPE,
    NO_TAPE,
    BAD_COMPASS,
    NO_COMPASS,
    BAD_QUADRANT,
    BAD_CLINO,
    MIXED_CLINOS,
    BAD_DIRECTION,
    LACKS_STATION,
    NO_QUANTITY,
    NO_UNIT,
    WRONG_UNIT,
    ZERO_FACTOR,
    MIXED_QUANTITIES,
    DECLINATION_SCALE,
    NO_DECLINATION,
    LACKS_NUMBER,
    FIXED_ELSEWHERE,
    FIXES_DIFFER,
    FIXED_NOWHERE,
    BAD_FIX,
    LACKS_FILE_NAME,
    NO_FILE,
    NO_FILES_HERE,
    CYCLE,
    DEEP_FILES,
    MANY_FILES,
    BAD_CASE,
    BAD_INFER,
    BAD_FLAG,
    BAD_ALIAS,
    BAD_SET,
    SET_LETTER,
    BAD_TRUNCATE,
    BAD_DATE,
    FEW_EQUATES,
    MORE_WORDS,
    NO_COMMAND_WORD,
    OTHER_COMMAND,
    NO_LEG,
    IS_UTF16,
    IS_3D,
    IS_THERION,
    IS_COMPASS,
    IS_COMPASS_PROJECT,
    IS_WALLS,
    IS_POCKETTOPO,
    IS_TABLE,
    IS_ARCHIVE,
    IS_PAGE,
    IS_PROSE,
    TROUBLES
} trouble_kind;

typedef enum {
    SPLAYS,
    SIGHTS,
    SURFACE_LEGS,
    DUPLICATE_LEGS,
    PASSAGE_LINES,
    SOLVES,
    AUTO_DECLINATION,
    CONVERTED_FIXES,
    LARGE_COMPASS,
    LARGE_CLINO,
    NEGATIVE_TAPE,
    SHORT_TAPE,
    COMPASSES_DIFFER,
    CLINOS_DIFFER,
    TAPES_DIFFER,
    COMPASS_ON_PLUMB,
    MILS,
    FIXED_TWICE,
    EQUATED_TO_ITSELF,
    NOTES
} note_kind;

/* ---- words.c: how signs are used (*set); names may have letters, digits and bytes above 127 besides. */
enum sign {
    SIGN_BLANK = 1,
    SIGN_COMMENT = 2,
    SIGN_DECIMAL = 4,
    SIGN_EOL = 8,
    SIGN_KEYWORD = 16,
    SIGN_MINUS = 32,
    SIGN_NAMES = 64,
    SIGN_OMIT = 128,
    SIGN_PLUS = 256,
    SIGN_ROOT = 512,
    SIGN_SEPARATOR = 1024,
};
typedef struct {
    uint16_t of[256];
} signs;

/* ---- names.c: names are a tree, a label below another name; the first is the root. `key` is what is compared, `label`
 * what was written. */
typedef struct {
    size_t above, length, station;
    part key, label;
} name_node;

/* How letters of a name are compared (*case). */
typedef enum { AS_LOWER, AS_UPPER, AS_WRITTEN } letter_case;

/* ---- styles.c: what a field of a data line is, quantities first. */
enum {
    FIELD_FROM = SURVEY_QUANTITIES,
    FIELD_TO,
    FIELD_STATION,
    FIELD_DEPTH,
    FIELD_COUNT,
    FIELD_DIRECTION,
    FIELD_NEWLINE,
    FIELD_IGNORE,
    FIELD_IGNORE_ALL
};

/* Styles that are no legs. */
enum { STYLE_NOSURVEY = SURVEY_CARTESIAN + 1, STYLE_PASSAGE };

/* The order of fields that *data gives; newline is the place of FIELD_NEWLINE, or that of the end. */
typedef struct {
    int style;
    size_t count, newline;
    bool shared; /* stations are shared between legs */
    uint8_t fields[MOST_FIELDS];
} order;

/* ---- quantities.c: what has units, corrections and standard deviations. Length and angle quantities are in metres and
 * degrees. */
enum {
    Q_TAPE,
    Q_COMPASS,
    Q_CLINO,
    Q_BACKTAPE,
    Q_BACKCOMPASS,
    Q_BACKCLINO,
    Q_DEPTH,
    Q_COUNT,
    Q_EASTING,
    Q_NORTHING,
    Q_ALTITUDE,
    Q_DECLINATION,
    Q_WALLS, /* left, right, up, down */
    Q_LEVEL,
    Q_PLUMB,
    Q_POSITION,
    QUANTITIES
};
typedef struct {
    double unit, zero, scale, sd;
    enum survey_form form;
} quantity;

/* ---- settings.c: what holds from a *begin to its *end. */
typedef struct {
    size_t prefix, file, line;
    part label;
    const signs *sign;
    const order *fields;
    letter_case as;
    size_t truncate;
    bool infer_plumbs, infer_equates, dash_is_splay, splay, surface, duplicate;
    quantity of[QUANTITIES];
    unsigned sd_given; /* a bit for each quantity */
    bool auto_declination;
    double declination;
    size_t trip;
    bool own_trip; /* the trip began in this scope */
    part system;   /* *cs */
} settings;

/* A file that is being read: its line, its words being handed out from `word` on, and what comes after it. */
typedef struct {
    size_t file, number, root, depth;
    const uint8_t *word, *line, *line_end, *next, *end;
} cursor;

/* What lines of data have said since the last leg: its stations, readings that two legs share (from and to), and
 * readings of its own. */
typedef struct {
    size_t count, shared_count, from, to, line;
    part name;                                       /* the station that was read last, as written */
    bool has_from, has_to, from_unnamed, to_unnamed; /* a station that is neither unnamed nor known was bad */
    bool has_leg, bad_leg, backwards;                /* its own line was read; it has a trouble; direction B */
    struct survey_reading shared[2], readings[MOST_FIELDS];
} traverse;

typedef struct {
    size_t count, file, line;
} noted;

typedef struct reader {
    struct survey *s;
    cursor at;
    settings *scopes;
    size_t depth, scope_room;
    name_node *names;
    size_t name_count, name_room, *slots, slot_count;
    size_t leg_room, station_room, equate_room, sight_room, fix_room, trip_room, file_room, include_room, note_room;
    traverse run;
    bool bad_line, no_memory, latin1;
    noted notes[NOTES];
    size_t commands, includes, open[MOST_DEEP], open_count;
    part output_system;
    bool fixed_nowhere; /* a *fix without coordinates was read */
    survey_fetch *fetch;
    void *context;
} reader;

/* memory.c: memory that survey_free takes back; room for one more element of an array; a copy ended by a NUL. */
void *allot(reader *r, size_t size);
bool room_for_one(reader *r, void *array, size_t count, size_t *room, size_t size);
char *copy_of(reader *r, part of);

/* messages.c: reports a trouble of the line that is read, once for a line of data; counts a note, or tells it with its
 * line. */
void complain_at(reader *r, size_t file, size_t line, trouble_kind why, part word);
void complain(reader *r, trouble_kind why, part word);
void remark(reader *r, note_kind what, part word);
void tell_notes(reader *r);
void keep_only(reader *r, trouble_kind why);
extern const part NO_WORD;

/* words.c */
extern const signs DEFAULT_SIGNS;
bool has_sign(const reader *r, uint8_t byte, unsigned sign);
bool next_line(reader *r);
bool next_word(reader *r, part *word);
bool peek_word(reader *r, part *word);
part next_string(reader *r);
bool ends_here(reader *r);
bool is_word(part word, const char *small_letters);
int index_of(part word, const char *const *small_letters);
bool read_number(const reader *r, part word, double *number, int *decimals);
bool next_number(reader *r, double *number);
part decimal_comma(const reader *r);

/* names.c */
#define NO_NAME SIZE_MAX
bool set_up_names(reader *r);
size_t name_below(reader *r, size_t scope, part word);
size_t station_named(reader *r, part word);
void make_same(reader *r, size_t one, size_t other);
size_t same_as(struct survey *s, size_t station);
void name_stations(reader *r);
char *full_name(reader *r, size_t name);

/* settings.c */
settings *now(reader *r);
bool set_up_settings(reader *r);
void take_begin(reader *r);
void take_end(reader *r);
void take_prefix(reader *r);
void take_case(reader *r);
void take_truncate(reader *r);
void take_infer(reader *r);
void take_alias(reader *r);
void take_flags(reader *r);
void take_set(reader *r);
void check_scopes(reader *r, size_t depth);

/* quantities.c */
void default_quantities(settings *s, bool units, bool corrections, bool deviations);
void take_units(reader *r);
void take_calibrate(reader *r);
void take_sd(reader *r);
void take_declination(reader *r);
void take_default(reader *r);
int quantity_of(enum survey_quantity what);

/* trips.c */
size_t trip_now(reader *r);
void take_date(reader *r);
void take_team(reader *r);

/* styles.c */
extern const order DEFAULT_ORDER;
void take_data(reader *r);

/* data.c: a line of data; the end of what lines of data have begun. */
void take_data_line(reader *r);
void end_traverse(reader *r);

/* legs.c: a leg of what the traverse has. */
void add_leg(reader *r);

/* fixes.c */
void take_fix(reader *r);
void take_cs(reader *r);
void take_equate(reader *r);
void take_entrance(reader *r);
void join_stations(reader *r, size_t one, size_t other);

/* files.c */
size_t add_file(reader *r, const char *name, const uint8_t *bytes, size_t length);
void read_file(reader *r, size_t file);
void take_include(reader *r);

/* commands.c */
void take_command(reader *r);

/* others.c: what a text is that is no Survex, or TROUBLES. */
trouble_kind other_format(const reader *r, const struct survey_file *file);

#endif
