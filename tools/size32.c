/* For processors whose size_t has 32 bits. The modules take every length as 64 bits, and write lengths and the lines of
 * a survey as 64 bits; tools/target gives their functions with lengths the name NAME_64, and these have the header's
 * names and types. A length that is written is at most one that was given, and a line at most the bytes of the text and
 * 1, so that nothing is cut. */
#include "jabulghi.h"

typedef char size_t_has_32_bits[sizeof(size_t) == 4 ? 1 : -1];

/* clang-format off: it takes the pointers in lists of parameters for products */
/* A call that is given lengths and writes none. Within it a size_t has 64 bits, so that the parameters are also those
 * of the module's function. */
#define CALL(name, parameters, arguments)                                                                              \
    uint32_t jabulghi_##name parameters {                                                                              \
        typedef uint64_t size_t;                                                                                       \
        uint32_t jabulghi_##name##_64 parameters;                                                                      \
        return jabulghi_##name##_64 arguments;                                                                         \
    }
CALL(block, (jabulghi_record * record, int16_t *block, size_t length), (record, block, length))
CALL(look, (const jabulghi_record *record, int16_t *block, size_t length), (record, block, length))
CALL(take, (jabulghi_record * record, int16_t *block, size_t length), (record, block, length))
CALL(block18, (jabulghi_record * record, int32_t *block, size_t length), (record, block, length))
CALL(look18, (const jabulghi_record *record, int32_t *block, size_t length), (record, block, length))
CALL(take18, (jabulghi_record * record, int32_t *block, size_t length), (record, block, length))
CALL(misclosure, (const uint8_t *text, size_t length, int64_t *sums, int64_t *millimetres, uint32_t *line),
     (text, length, sums, millimetres, line))
CALL(intervals, (const uint8_t *text, size_t length, int64_t *sums, int64_t *millimetres, uint32_t *line),
     (text, length, sums, millimetres, line))
CALL(play, (const uint8_t *text, size_t length, uint64_t first, int64_t (*misses)[2], size_t runs, uint32_t *line),
     (text, length, first, misses, runs, line))
CALL(window_push_all_members,
     (uint32_t * size, uint32_t *held, uint32_t *place, int16_t *places, int64_t *sum, int64_t *squares,
      const int16_t *samples, size_t length),
     (size, held, place, places, sum, squares, samples, length))
CALL(marks_save_members,
     (uint32_t * used, uint32_t *lengths, uint8_t *names, jabulghi_record *records, const jabulghi_record *record,
      const uint8_t *name, size_t length),
     (used, lengths, names, records, record, name, length))
CALL(marks_return_members,
     (const uint32_t *used, const uint32_t *lengths, const uint8_t *names, const jabulghi_record *records,
      jabulghi_record *record, const uint8_t *name, size_t length),
     (used, lengths, names, records, record, name, length))
CALL(marks_drop_members,
     (uint32_t * used, uint32_t *lengths, uint8_t *names, jabulghi_record *records, const uint8_t *name, size_t length),
     (used, lengths, names, records, name, length))

/* Those that write a length or a line, whatever they return. */
uint32_t jabulghi_list_64(const uint8_t *, uint64_t, uint8_t *, uint64_t, uint32_t *, uint64_t *);
uint32_t jabulghi_list(const uint8_t *text, size_t text_length, uint8_t *listing, size_t listing_length, uint32_t *line,
                       size_t *length) {
    uint64_t written;
    uint32_t number = jabulghi_list_64(text, text_length, listing, listing_length, line, &written);
    *length = (size_t)written;
    return number;
}

uint32_t jabulghi_legs_64(const uint8_t *, uint64_t, uint8_t *, uint64_t, uint64_t *, uint64_t *);
uint32_t jabulghi_legs(const uint8_t *text, size_t text_length, uint8_t *shots, size_t shots_length, size_t *line,
                       size_t *length) {
    uint64_t bad_line, written;
    uint32_t number = jabulghi_legs_64(text, text_length, shots, shots_length, &bad_line, &written);
    *line = (size_t)bad_line;
    *length = (size_t)written;
    return number;
}
