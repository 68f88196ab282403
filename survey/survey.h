/* Reads a cave survey as Survex's cavern reads it: bytes and a function that fetches included files in; legs with all
 * that is known of them, or sentences, out. No input or output and no state of its own. Nothing of it is proved. */
#ifndef SURVEY_H
#define SURVEY_H

#include <stdbool.h>
#include <stddef.h>
#include <stdint.h>

/* What was measured. Lengths are in metres, angles in degrees wherever a value is given. */
enum survey_quantity {
    SURVEY_TAPE,
    SURVEY_COMPASS,
    SURVEY_CLINO,
    SURVEY_BACKTAPE,
    SURVEY_BACKCOMPASS,
    SURVEY_BACKCLINO,
    SURVEY_FROM_DEPTH,
    SURVEY_TO_DEPTH,
    SURVEY_DEPTH_CHANGE,
    SURVEY_FROM_COUNT,
    SURVEY_TO_COUNT,
    SURVEY_EASTING,
    SURVEY_NORTHING,
    SURVEY_ALTITUDE,
    SURVEY_QUANTITIES
};

/* How a reading is written: a number, a number of percent, a quadrant bearing (S34E), a word (up, down, level), or -
 * for none. */
enum survey_form { SURVEY_NUMBER, SURVEY_PERCENT, SURVEY_QUADRANT, SURVEY_WORD, SURVEY_OMITTED };

/* A reading as it stands in the file, and what it means: value = (written * unit - zero) * scale, the arc tangent taken
 * of percent before zero. */
struct survey_reading {
    enum survey_quantity what;
    enum survey_form form;
    const char *text; /* as written, ended by a NUL */
    size_t file, line;
    size_t at;      /* where it starts in the bytes of its file */
    int decimals;   /* digits after the point; -1 where it is no number */
    double written; /* the number; 0 where there is none */
    double unit;    /* metres or degrees in one of the unit written; for percent the slope in one of it */
    double zero;    /* *calibrate, in metres or degrees */
    double scale;
    double value; /* corrected, in metres or degrees; a word has its meaning (up 90, level 0), an omitted reading 0 */
    double sd;    /* standard deviation in force, in metres or degrees */
    enum survey_form as; /* how its numbers are written, whatever stands here: SURVEY_NUMBER, _PERCENT or _QUADRANT */
};

/* What legs are measured by. */
enum survey_style { SURVEY_NORMAL, SURVEY_DIVING, SURVEY_CYLPOLAR, SURVEY_CARTESIAN };

/* Where the slope of a leg comes from: a clino reading, the word level, a plumb line, depths or heights, or nothing
 * (taken for level). */
enum survey_slope { SURVEY_BY_CLINO, SURVEY_BY_LEVEL, SURVEY_BY_PLUMB, SURVEY_BY_HEIGHT, SURVEY_UNKNOWN };

/* Standard deviations in force for a leg, in metres and degrees, those of a mean (of fore- and backsight, of several
 * shots) being the mean's. `clino` is *sd level or *sd plumb where the slope is so. `given` has a bit, 1 <<
 * SURVEY_SD_.., for each that *sd set. */
enum { SURVEY_SD_TAPE, SURVEY_SD_COMPASS, SURVEY_SD_CLINO, SURVEY_SD_DEPTH, SURVEY_SD_POSITION };
struct survey_sd {
    double tape, compass, clino, depth, position;
    unsigned given;
};

/* A leg of the centre line; splays and lines of sight are none. Its vector is east, north and up in metres, from `from`
 * to `to`. */
struct survey_leg {
    size_t file, line; /* of `files`; the line of its readings */
    size_t from,
        to; /* of `stations`, as named on this leg; a leg of direction B is from the later station to the one before */
    enum survey_style style;
    enum survey_slope slope_by;
    const struct survey_reading
        *readings; /* those that are written, in the order of the file, one shot after another */
    size_t reading_count;
    size_t shots; /* how often the leg stands in a row: its vector is the mean, and each shot has reading_count / shots
                     readings */
    bool surface; /* *flags */
    bool duplicate;     /* *flags */
    double declination; /* degrees, added to compass and backcompass */
    double length;      /* metres along the leg; cylpolar: in plan; several shots: their mean */
    double bearing; /* degrees from 0 to less than 360, the declination and backsights worked in; 0 where a plumbed leg
                       has none */
    double slope;   /* degrees */
    double east, north, up;
    struct survey_sd sd;
    size_t trip; /* of `trips` */
};

/* A name of a station. Names that *equate joins have the same `same`: the first of them, which is its own. */
struct survey_station {
    const char *name; /* all labels, as first written, with points between */
    size_t same;
    size_t file, line; /* where it is named first */
    size_t fix;        /* of `fixes`, for the station that is `same`; SURVEY_NONE where it is not fixed */
    bool entrance;     /* *entrance */
};
#define SURVEY_NONE SIZE_MAX

/* *equate, or a leg of no length where zero legs are taken for equates. */
struct survey_equate {
    size_t file, line;
    size_t one, other;
};

/* Two stations that see each other (nosurvey): joined, but not measured. */
struct survey_sight {
    size_t file, line;
    size_t from, to;
};

/* *fix. A station is fixed once at most. */
struct survey_fix {
    size_t file, line;
    size_t station;
    double east, north, up;
    double sd_east, sd_north, sd_up; /* 0 where the point is exact */
};

/* Legs measured together: by *begin with a name, *date or *team. */
struct survey_trip {
    size_t file, line;
    const char *name; /* the survey that *begin names, "" at the root */
    const char *date; /* as written, or "" */
    const char *team; /* as written, people separated by ", ", or "" */
};

/* A file that was read, under the name that messages give it. */
struct survey_file {
    const char *name;
    const uint8_t *bytes;
    size_t length;
    bool latin1; /* it is no UTF-8 */
};

/* *include, in the order of reading: its line is the bytes of `file` from `at` to before `end`, its line feed included.
 * The legs from `first` to before `last` were read of `included`, and of what that includes. */
struct survey_include {
    size_t file, at, end;
    size_t included, first, last;
};

/* What a user should know of a survey that is taken ("3 splays are left out"), or why it is refused. Line 0 means the
 * whole file. */
struct survey_message {
    size_t file, line;
    const char *text;
};

/* A survey: where `trouble_count` is 0 it is taken. Otherwise it is refused, the first SURVEY_MOST_TROUBLES troubles
 * are in `troubles`, and legs and stations are what could be read. */
#define SURVEY_MOST_TROUBLES 20
struct survey {
    struct survey_file *files;
    struct survey_include *includes;
    struct survey_leg *legs;
    struct survey_station *stations;
    struct survey_equate *equates;
    struct survey_sight *sights;
    struct survey_fix *fixes;
    struct survey_trip *trips;
    struct survey_message *notes, *troubles;
    size_t file_count, include_count, leg_count, station_count, equate_count, sight_count, fix_count, trip_count,
        note_count;
    size_t trouble_count; /* all of them */
    size_t told_count;    /* those in `troubles` */
};

/* Fetches a file by the name that is tried: true, and bytes from malloc, which the survey frees, where there is one;
 * else false. */
typedef bool survey_fetch(void *context, const char *name, uint8_t **bytes, size_t *length);

/* Reads a survey of that name. `fetch` may be NULL: then an included file is a trouble that names it. NULL only where
 * memory has run out. The bytes are copied. */
struct survey *survey_read(const char *name, const uint8_t *bytes, size_t length, survey_fetch *fetch, void *context);
void survey_free(struct survey *s);

/* The reading of a leg of that quantity, or NULL. */
const struct survey_reading *survey_reading_of(const struct survey_leg *leg, enum survey_quantity what);

/* What a reading would mean if this number stood in the book. */
double survey_value_of(const struct survey_reading *reading, double written);

/* The vector of a leg with other values for its readings: value[j] for readings[j], corrected, in metres or degrees.
 * With their own values it is the leg's own. */
void survey_vector_of(const struct survey_leg *leg, const double *value, double vector[3]);

#endif
