/* Gaussian noise for a simulated laser logger: the calls of documents 01 and 02 from C. Link libjabulghi.
 *
 * No argument need be tested first. A pointer is aligned and points to as many elements as are named; it may be null where its length is 0, and nowhere
 * else. Memory that a call may write overlaps nothing else that it is given. Calls keep nothing and allocate nothing.
 *
 * A sample s is s / 2048 standard deviations: with a sigma in millimetres the noise is sigma * s / 2048 mm. A listing rounds that to the nearest, halves
 * away from zero: (sigma * |s| + 1024) / 2048 in whole numbers, with the sign of s. Samples of 18 bits are over 8192.
 *
 * Seeds are best six unrelated large numbers, as the command `jabulghi seeds` draws them, all six anew for each record. Every fit six are accepted; of
 * small ones, 2 8 16 and the like, the samples of about ten pairs are too large, and some are off up to the 500th pair; records with the same stream b
 * turn by the same angles for ever, with any stream a. Several rigs can share one stream by jabulghi_skip.
 *
 * Processors. What is proved is the code, before it is compiled. The toolchain compiles it for x86-64 under Linux, any such processor; every call is
 * compared with another implementation there. For other processors the same modules are compiled by the same compiler (make lib TARGET=list names
 * them), which the toolchain does not support; that is tested under emulators, and on no device. Where a size_t has 32 bits, functions in C of a line or
 * two, which are not proved, pass the lengths on. The lowest byte of a number comes first.
 * All arithmetic is on whole numbers: no call uses floating point or raises a floating-point flag.
 *
 * State and threads. The library has no data that is written. Calls on different records, windows and marks may run at once in several threads; on the
 * same one, one after another. A record has 40 bytes, a window 8,224 and a set of marks 960. All calls together are 63 KB of code and tables on x86-64, and
 * 60 to 66 KB on the processors without a system.
 *
 * What it needs at most of a C library and of the compiler's own library (libgcc or compiler-rt):
 *   on x86_64, x86_64-v3, aarch64, riscv64: memcpy, memset
 *   on x86_64-windows: memcpy, memset, ___chkstk_ms
 *   on armv7: memcpy, memset, __aeabi_uldivmod
 *   on thumbv6m: __aeabi_memcpy, __aeabi_memcpy4, __aeabi_memcpy8, __aeabi_memclr, __aeabi_memclr4, __aeabi_memclr8, __aeabi_uldivmod, __aeabi_lmul, __aeabi_llsl, __aeabi_llsr, __clzsi2
 *   on thumbv7m, thumbv7em, thumbv7em-hf, thumbv7em-dp, thumbv8m, thumbv8m-hf: __aeabi_memcpy, __aeabi_memcpy4, __aeabi_memcpy8, __aeabi_memclr, __aeabi_memclr4, __aeabi_memclr8, __aeabi_uldivmod
 *   on riscv32imc, riscv32imac: memcpy, memset, __udivdi3
 *
 * Stack. A call takes at most so much, the caller's own frame left out, as measured with the longest texts and blocks of 4096 on these processors and in
 * WebAssembly; under Windows it was not measured:
 *   256 bytes: jabulghi_seed, jabulghi_ask, jabulghi_give_up, jabulghi_window_make, jabulghi_window_push, jabulghi_window_push_all
 *   1,024 bytes: jabulghi_sample, jabulghi_pair, jabulghi_sample18, jabulghi_pair18, jabulghi_legs, jabulghi_misclosure, jabulghi_intervals
 *   1,536 bytes: jabulghi_block18, jabulghi_look18, jabulghi_take18
 *   2,048 bytes: jabulghi_block, jabulghi_look, jabulghi_take, jabulghi_skip, jabulghi_list
 *   4,096 bytes: jabulghi_marks_save, jabulghi_marks_return, jabulghi_marks_drop
 *   8,192 bytes: jabulghi_play */
#ifndef JABULGHI_H
#define JABULGHI_H

#include <stddef.h>
#include <stdint.h>

#if defined(__BYTE_ORDER__) && __BYTE_ORDER__ != __ORDER_LITTLE_ENDIAN__
#error "jabulghi: the lowest byte of a number comes first; there is no library for other processors"
#endif
#if defined(__i386__) || defined(_M_IX86)
#error "jabulghi: there is no library for x86 of 32 bits, which aligns numbers of 64 bits otherwise"
#endif

/* The version of the header and the library. */
#define JABULGHI_VERSION "1.1.0"
#define JABULGHI_VERSION_MAJOR 1
#define JABULGHI_VERSION_MINOR 1
#define JABULGHI_VERSION_PATCH 0

#ifdef __cplusplus
extern "C" {
#endif

/* Every call returns one of these numbers. Order: 2 before 3; 11, 12, 15, 14, 16, 4, 13; for a job 5, then the first bad line, within it 6, 8, 9, 7, 11, 12;
 * last 10, or for plays 23, 13; for a Survex text the first bad line, within it 21, 22; last 10; for a listing the first bad line,
 * within it 6, 24, 25, 23; for a mark 11, 12, 14, 18, 19, 20. */
enum {
    JABULGHI_OK = 0,
    JABULGHI_K_TOO_LARGE = 2,       /* k of 2^48 or more */
    JABULGHI_V_TOO_LARGE = 3,       /* v above 65535 */
    JABULGHI_ODD_LENGTH = 4,        /* block of odd length */
    JABULGHI_JOB_TOO_LONG = 5,      /* job over 60,000 bytes */
    JABULGHI_NO_FORM = 6,           /* line is none of the three forms, or lacks its line feed; in a listing: unlike its lines, missing, or a false count */
    JABULGHI_NUMBER_TOO_LARGE = 7,  /* number beyond its range */
    JABULGHI_WRONG_PLACE = 8,       /* form in the wrong place, or text ends before line 2 */
    JABULGHI_TOO_MANY_SHOTS = 9,    /* 501st shot */
    JABULGHI_LISTING_TOO_LONG = 10, /* listing or shot lines longer than the buffer */
    JABULGHI_UNFIT_STREAM_A = 11,   /* a register of stream a below its minimum */
    JABULGHI_UNFIT_STREAM_B = 12,   /* a register of stream b below its minimum, stream a being fit */
    JABULGHI_COUNT_FULL = 13,       /* the count would pass 2^64 - 1 */
    JABULGHI_REQUEST_OPEN = 14,     /* a request is open: take it or give it up first */
    JABULGHI_NO_REQUEST = 15,       /* no request is open */
    JABULGHI_WRONG_REQUEST = 16,    /* more than 1,000,000 pairs, asked or noted, or a block not of two samples for each */
    JABULGHI_UNFIT_WINDOW = 17,     /* a window's N outside 1 to 4096, more than N held, a place outside it, or a sum beyond 2^42 in size */
    JABULGHI_BAD_NAME = 18,         /* a mark's name is not 1 to 12 letters or digits */
    JABULGHI_NAME_NOT_HELD = 19,    /* no mark has that name */
    JABULGHI_MARKS_FULL = 20,       /* all 16 places are used, and the name is new */
    JABULGHI_NO_LEG = 21,           /* Survex: no data line, or line is no leg, a name or number has not its form, or no line feed */
    JABULGHI_LEG_OUT_OF_RANGE = 22, /* Survex: tape above 1000 m, compass above 360 degrees, or clino not the single digit 0 */
    JABULGHI_OTHER_STATION = 23,    /* a shot that does not start where the one before ended */
    JABULGHI_SHOT_TOO_LARGE = 24,   /* a listing's 501st shot, distance above 1,008,242 mm or step above 65535 */
    JABULGHI_LOW_ABOVE_HIGH = 25    /* a shot whose shortest distance is above its longest */
};

/* The most pairs that one request may ask for. */
#define JABULGHI_MOST_ASKED 1000000

/* Every listing fits this many bytes. */
#define JABULGHI_LISTING_ROOM 20480

/* A generator record that the caller keeps: registers s0, s1, s2 of stream a and of stream b; the count of the pairs that were handed out or skipped
 * since seeding; and the note, whether a request is open (not 0) and for how many pairs. An accepted record has s0 at least 2, s1 at least 8 and s2 at
 * least 16 in both. A record that was accepted is refused later for its count, its note or the call's own arguments alone. A refused call changes no
 * word of it; only seeding always writes all of it. */
typedef struct jabulghi_record { uint32_t a[3], b[3]; uint64_t count; uint32_t open, asked; } jabulghi_record;

/* Seeds a record, its count 0, no request open and a noted 0. Refused (11, 12), the registers become zeros besides. */
uint32_t jabulghi_seed(uint32_t a0, uint32_t a1, uint32_t a2, uint32_t b0, uint32_t b1, uint32_t b2, jabulghi_record *record);

/* The two samples of k, from 0 to 2^48 - 1, and v, from 0 to 65535, in units of 2^-11 of a standard deviation. Each is less than
 * 33/64 of a unit from its member of the exact Box-Muller pair of (2k + 1) over 2^49, the middle of k's cell, and v over
 * 65536. Refused (2, 3), the samples are 0 0. samples: 2 elements. */
uint32_t jabulghi_sample(uint64_t k, uint32_t v, int16_t *samples);

/* One pair from a record: a draw from a, then one from b, and their two samples. Refused (11, 12, 14, 13), the samples are 0 0 and
 * the record stays. samples: 2 elements. */
uint32_t jabulghi_pair(jabulghi_record *record, int16_t *samples);

/* A block of length elements: the samples of length / 2 pairs, first and second alternating. Refused (11, 12, 14, 4, 13), block and
 * record stay: all its pairs are counted or none. Length 0 succeeds and moves nothing. */
uint32_t jabulghi_block(jabulghi_record *record, int16_t *block, size_t length);

/* A look at the block that would come next: the samples of jabulghi_block, and the record stays as it is. An open request does not matter to it.
 * Refused (11, 12, 4, 13), the block stays. */
uint32_t jabulghi_look(const jabulghi_record *record, int16_t *block, size_t length);

/* Moves a record by n pairs, for any n at once: rigs that share one long stream each start at a stretch of their own. Skips that are
 * accepted add up, in any order; n = 0 leaves the record as it is. Refused (11, 12, 14, 13), the record stays. */
uint32_t jabulghi_skip(jabulghi_record *record, uint64_t n);

/* Ask, then take: what was asked for and not yet taken is not lost. Asking notes n pairs, 0 to 1,000,000, and moves nothing; a request for 0 is open
 * too. Refused: 11, 12, 14 (one is open), 16, 13 (no room for n). */
uint32_t jabulghi_ask(jabulghi_record *record, uint32_t n);

/* Fills a block of just two samples for each pair that was asked for, as jabulghi_block would have, and clears the note. Refused (11, 12, 15, 16, 13),
 * block and record stay. */
uint32_t jabulghi_take(jabulghi_record *record, int16_t *block, size_t length);

/* Clears the note and moves nothing. Refused: 11, 12, 15. */
uint32_t jabulghi_give_up(jabulghi_record *record);

/* Samples of 18 bits, 5 integer bits and 13 fraction bits, for converters that take them: each call is the one of the same name without the 18, with
 * samples in units of 2^-13 of a standard deviation. It returns the same number and leaves the same record; one jabulghi_ask serves jabulghi_take and
 * jabulghi_take18. A sample is less than three quarters of a unit from its member of the exact pair, and no size is above 67517. */
uint32_t jabulghi_sample18(uint64_t k, uint32_t v, int32_t *samples);
uint32_t jabulghi_pair18(jabulghi_record *record, int32_t *samples);
uint32_t jabulghi_block18(jabulghi_record *record, int32_t *block, size_t length);
uint32_t jabulghi_look18(const jabulghi_record *record, int32_t *block, size_t length);
uint32_t jabulghi_take18(jabulghi_record *record, int32_t *block, size_t length);

/* The listing of a job's text, its line and its length. Accepted, line is 0 and the first length bytes of listing are the listing;
 * the bytes beyond it keep their contents. Refused (5 to 12), length is 0, line is the bad line or the missing one, or 0 for 5 and
 * 10, and listing stays. A listing has at most 20,024 bytes; with less room than that it is measured first, which on
 * x86-64 took 1.2 to 1.3 times as long. */
uint32_t jabulghi_list(const uint8_t *text, size_t text_length, uint8_t *listing, size_t listing_length, uint32_t *line, size_t *length);

/* A window that the caller keeps, for a drift display: the sum and the sum of squares of the latest N samples. size is N, from 1 to 4096, held how many
 * samples are held, place the place that the next one takes. Once N are held, each new sample pushes out the oldest. After any run of samples from its
 * making both sums are those of the last N, or of all that came where fewer came, and no push is refused. A window from elsewhere is taken as passed where
 * it is fit. A call that is refused (17) leaves zeros in every member: N 0, none held, every place and both sums 0. */
typedef struct jabulghi_window { uint32_t size, held, place; int16_t places[4096]; int64_t sum, squares; } jabulghi_window;

/* The exported functions take a window's members one by one, for any language; from C and C++ use the inline functions below. places: 4096 elements. */
uint32_t jabulghi_window_make_members(uint32_t *size, uint32_t *held, uint32_t *place, int16_t *places, int64_t *sum, int64_t *squares, uint32_t n);
uint32_t jabulghi_window_push_members(uint32_t *size, uint32_t *held, uint32_t *place, int16_t *places, int64_t *sum, int64_t *squares, int16_t sample);
uint32_t jabulghi_window_push_all_members(uint32_t *size, uint32_t *held, uint32_t *place, int16_t *places, int64_t *sum, int64_t *squares,
                                          const int16_t *samples, size_t length);

/* Makes a window for the latest n samples, with none held. */
static inline uint32_t jabulghi_window_make(jabulghi_window *window, uint32_t n) {
    return jabulghi_window_make_members(&window->size, &window->held, &window->place, window->places, &window->sum, &window->squares, n);
}

/* One sample. */
static inline uint32_t jabulghi_window_push(jabulghi_window *window, int16_t sample) {
    return jabulghi_window_push_members(&window->size, &window->held, &window->place, window->places, &window->sum, &window->squares, sample);
}

/* Many samples, as if they were pushed one by one; the number is that of the last. With length 0 the window is tested and stays where it is fit. */
static inline uint32_t jabulghi_window_push_all(jabulghi_window *window, const int16_t *samples, size_t length) {
    return jabulghi_window_push_all_members(&window->size, &window->held, &window->place, window->places, &window->sum, &window->squares,
                                            samples, length);
}

/* Up to 16 marks to come back to, that the caller keeps, each a name of 1 to 12 letters or digits with a record. A set of zeros is the empty one. A place
 * is used where its word in used is not 0; its name is the first bytes of names, as many as length. Where a set from elsewhere holds a name twice, the
 * first is meant; a malformed name there matches none, and takes up its place. A call that is refused changes nothing; an accepted one changes its own
 * place alone. */
typedef struct jabulghi_marks { uint32_t used[16], length[16]; uint8_t names[16][12]; jabulghi_record records[16]; } jabulghi_marks;

/* The sizes that the library counts on. */
#if defined(__cplusplus) && __cplusplus >= 201103L
#define JABULGHI_HAS_BYTES(type, bytes) static_assert(sizeof(type) == bytes, #type " has not " #bytes " bytes")
#elif !defined(__cplusplus) && defined(__STDC_VERSION__) && __STDC_VERSION__ >= 201112L
#define JABULGHI_HAS_BYTES(type, bytes) _Static_assert(sizeof(type) == bytes, #type " has not " #bytes " bytes")
#else
#define JABULGHI_HAS_BYTES(type, bytes) typedef char type##_has_##bytes##_bytes[sizeof(type) == bytes ? 1 : -1]
#endif
JABULGHI_HAS_BYTES(jabulghi_record, 40);
JABULGHI_HAS_BYTES(jabulghi_window, 8224);
JABULGHI_HAS_BYTES(jabulghi_marks, 960);
#undef JABULGHI_HAS_BYTES

/* The exported functions take a set's members one by one, for any language; from C and C++ use the inline functions below. used, lengths: 16 elements;
 * names: 192; records: 16. */
uint32_t jabulghi_marks_save_members(uint32_t *used, uint32_t *lengths, uint8_t *names, jabulghi_record *records, const jabulghi_record *record,
                                     const uint8_t *name, size_t length);
uint32_t jabulghi_marks_return_members(const uint32_t *used, const uint32_t *lengths, const uint8_t *names, const jabulghi_record *records,
                                       jabulghi_record *record, const uint8_t *name, size_t length);
uint32_t jabulghi_marks_drop_members(uint32_t *used, uint32_t *lengths, uint8_t *names, jabulghi_record *records, const uint8_t *name, size_t length);

/* Saves the record under a name: in the place that holds it, else in the first free one. Refused: 11, 12, 14 (a request is open), 18, 20. */
static inline uint32_t jabulghi_marks_save(jabulghi_marks *marks, const jabulghi_record *record, const char *name, size_t length) {
    return jabulghi_marks_save_members(marks->used, marks->length, &marks->names[0][0], marks->records, record, (const uint8_t *)name, length);
}

/* The record becomes the one that was saved under the name, its count and its note included, so that the samples after it are those that followed the
 * save. Refused, for the record passed in: 11, 12, 14; then 18, 19. */
static inline uint32_t jabulghi_marks_return(const jabulghi_marks *marks, jabulghi_record *record, const char *name, size_t length) {
    return jabulghi_marks_return_members(marks->used, marks->length, &marks->names[0][0], marks->records, record, (const uint8_t *)name, length);
}

/* Drops the mark of that name: its place becomes zeros, and usable again. Refused: 18, 19. */
static inline uint32_t jabulghi_marks_drop(jabulghi_marks *marks, const char *name, size_t length) {
    return jabulghi_marks_drop_members(marks->used, marks->length, &marks->names[0][0], marks->records, (const uint8_t *)name, length);
}

/* The shot lines of a Survex text's level legs, one a leg in order, as a job has them after its first two lines. The text may have any length; its
 * first line that is left once comments, blanks and empty lines are skipped is "*data normal from to tape compass clino". Accepted, line is 0 and
 * the first length bytes of shots are the shot lines; the bytes beyond them keep their contents. Refused (21, 22, 10), length is 0, line is the
 * bad line, the one after the last where no line is left, or 0 for 10, and shots stays. */
uint32_t jabulghi_legs(const uint8_t *text, size_t text_length, uint8_t *shots, size_t shots_length, size_t *line, size_t *length);

/* How far the loop of a listing misses: the sums of distance times sine (east) and times cosine (north) of its shots, each of which
 * starts where the one before ended. sums has them at 2^30, millimetres each rounded once, halves away from zero, and less than 3 from
 * the exact sum. Accepted, line is 0. Refused (6, 24, 23), line is the bad line, or the next one where a line is missing, and sums and
 * millimetres are 0. A text may have any length. sums and millimetres: 2 elements each, east and north. */
uint32_t jabulghi_misclosure(const uint8_t *text, size_t text_length, int64_t *sums, int64_t *millimetres, uint32_t *line);

/* The same where distances are known only between two readings: a listing headed "FROM TO LOW HIGH STEP", its rows alike. The lowest and the highest
 * sums that any choice of whole distances between low and high can give; each is the sum of some choice, and each of millimetres is less than 3 from
 * that choice's exact sum. Where low equals high throughout, both ends are the sums of jabulghi_misclosure for the listing with that distance.
 * Refused as there (6, 24, 25 for low above high, 23); each of the two calls refuses the other's header with 6 and line 1. sums and millimetres: 4 elements
 * each, east low, east high, north low, north high. */
uint32_t jabulghi_intervals(const uint8_t *text, size_t text_length, int64_t *sums, int64_t *millimetres, uint32_t *line);

/* How far a loop misses in each of many plays. The text is a job as jabulghi_list takes it, its shots a loop. misses[i] is east and north of play
 * first + i, in millimetres as jabulghi_misclosure rounds them. Play j starts j times the shots pairs on from the job's seeds: each play starts
 * where the one before ended, and any stretch of plays can run alone. Play j is what jabulghi_misclosure gives for the listing of the job with
 * the same lines and, as seeds, the registers of its record. Accepted, line is 0. Refused as the job is (5, 6, 8, 9, 7, 11, 12, line as there); then 23
 * with the line of the first shot that does not start where the one before ended; then 13 with line 0 where the pairs of all plays up to first + runs
 * would pass 2^64 - 1. Refused, misses stays. 0 runs and a job without shots are accepted; without shots each miss is 0, 0. That the last shot ends
 * where the first started is not tested. */
uint32_t jabulghi_play(const uint8_t *text, size_t text_length, uint64_t first, int64_t (*misses)[2], size_t runs, uint32_t *line);

#ifdef __cplusplus
}
#endif

#endif
