// The calls of jabulghi.h through jabulghi.hpp, under other names, so that a test in C runs them: each makes its object
// from the caller's memory, calls, and puts it back.
#include "jabulghi.hpp"

using jabulghi::generator;
using jabulghi::marks;
using jabulghi::window;

static uint32_t kept(jabulghi_record *record, const generator &after, jabulghi::status is) {
    *record = after.record;
    return is.number();
}
#define ON_RECORD(call)                                                                                                \
    generator rig(*record);                                                                                            \
    jabulghi::status is = rig.call;                                                                                    \
    return kept(record, rig, is);

template <class T> static uint32_t two(const jabulghi::result<jabulghi::pair_of<T>> &is, T *samples) {
    samples[0] = is->first;
    samples[1] = is->second;
    return is.number();
}

static window window_of(const uint32_t *size, const uint32_t *held, const uint32_t *place, const int16_t *places,
                        const int64_t *sum, const int64_t *squares) {
    window made;
    made.kept.size = *size, made.kept.held = *held, made.kept.place = *place, made.kept.sum = *sum,
    made.kept.squares = *squares;
    for (int j = 0; j < 4096; j++) made.kept.places[j] = places[j];
    return made;
}
static uint32_t put(const window &from, uint32_t *size, uint32_t *held, uint32_t *place, int16_t *places, int64_t *sum,
                    int64_t *squares, jabulghi::status is) {
    *size = from.kept.size, *held = from.kept.held, *place = from.kept.place, *sum = from.kept.sum,
    *squares = from.kept.squares;
    for (int j = 0; j < 4096; j++) places[j] = from.kept.places[j];
    return is.number();
}
#define ON_WINDOW(call)                                                                                                \
    window kept = window_of(size, held, place, places, sum, squares);                                                  \
    jabulghi::status is = kept.call;                                                                                   \
    return put(kept, size, held, place, places, sum, squares, is);

static marks marks_of(const uint32_t *used, const uint32_t *lengths, const uint8_t *names,
                      const jabulghi_record *records) {
    marks made;
    for (int j = 0; j < 16; j++)
        made.kept.used[j] = used[j], made.kept.length[j] = lengths[j], made.kept.records[j] = records[j];
    for (int j = 0; j < 192; j++) made.kept.names[j / 12][j % 12] = names[j];
    return made;
}
static uint32_t put(const marks &from, uint32_t *used, uint32_t *lengths, uint8_t *names, jabulghi_record *records,
                    jabulghi::status is) {
    for (int j = 0; j < 16; j++)
        used[j] = from.kept.used[j], lengths[j] = from.kept.length[j], records[j] = from.kept.records[j];
    for (int j = 0; j < 192; j++) names[j] = from.kept.names[j / 12][j % 12];
    return is.number();
}

extern "C" {
uint32_t through_seed(uint32_t a0, uint32_t a1, uint32_t a2, uint32_t b0, uint32_t b1, uint32_t b2,
                      jabulghi_record *record) {
    jabulghi::result<generator> rig = generator::seed(a0, a1, a2, b0, b1, b2);
    return kept(record, *rig, rig);
}
uint32_t through_sample(uint64_t k, uint32_t v, int16_t *samples) { return two(jabulghi::sample(k, v), samples); }
uint32_t through_sample18(uint64_t k, uint32_t v, int32_t *samples) { return two(jabulghi::sample18(k, v), samples); }
uint32_t through_pair(jabulghi_record *record, int16_t *samples) {
    generator rig(*record);
    uint32_t number = two(rig.pair(), samples);
    *record = rig.record;
    return number;
}
uint32_t through_pair18(jabulghi_record *record, int32_t *samples) {
    generator rig(*record);
    uint32_t number = two(rig.pair18(), samples);
    *record = rig.record;
    return number;
}
#ifdef JABULGHI_HAS_SPAN
#define SAMPLES std::span(block, length)
#else
#define SAMPLES block, length
#endif
uint32_t through_block(jabulghi_record *record, int16_t *block, size_t length){ON_RECORD(block(SAMPLES))} uint32_t
    through_block18(jabulghi_record *record, int32_t *block, size_t length){ON_RECORD(block18(SAMPLES))} uint32_t
    through_look(const jabulghi_record *record, int16_t *block, size_t length) {
    return generator(*record).look(SAMPLES).number();
}
uint32_t through_look18(const jabulghi_record *record, int32_t *block, size_t length) {
    return generator(*record).look18(SAMPLES).number();
}
uint32_t through_take(jabulghi_record *record, int16_t *block, size_t length){ON_RECORD(take(SAMPLES))} uint32_t
    through_take18(jabulghi_record *record, int32_t *block, size_t length){ON_RECORD(take18(SAMPLES))} uint32_t
    through_skip(jabulghi_record *record, uint64_t n){ON_RECORD(skip(n))} uint32_t
    through_ask(jabulghi_record *record, uint32_t n){ON_RECORD(ask(n))} uint32_t
    through_give_up(jabulghi_record *record){ON_RECORD(give_up())} uint32_t
    through_list(const uint8_t *text, size_t text_length, uint8_t *listing, size_t listing_length, uint32_t *line,
                 size_t *length) {
    jabulghi::result<size_t> is = jabulghi::list(text, text_length, listing, listing_length);
    *line = (uint32_t)is.line(), *length = *is;
    return is.number();
}
uint32_t through_legs(const uint8_t *text, size_t text_length, uint8_t *shots, size_t shots_length, size_t *line,
                      size_t *length) {
    jabulghi::result<size_t> is = jabulghi::legs(text, text_length, shots, shots_length);
    *line = is.line(), *length = *is;
    return is.number();
}
uint32_t through_misclosure(const uint8_t *text, size_t length, int64_t *sums, int64_t *millimetres, uint32_t *line) {
    jabulghi::result<jabulghi::miss> is = jabulghi::misclosure(text, length);
    for (int j = 0; j < 2; j++) sums[j] = is->sums[j], millimetres[j] = is->millimetres[j];
    *line = (uint32_t)is.line();
    return is.number();
}
uint32_t through_intervals(const uint8_t *text, size_t length, int64_t *sums, int64_t *millimetres, uint32_t *line) {
    jabulghi::result<jabulghi::misses> is = jabulghi::intervals(text, length);
    for (int j = 0; j < 4; j++) sums[j] = is->sums[j], millimetres[j] = is->millimetres[j];
    *line = (uint32_t)is.line();
    return is.number();
}
uint32_t through_play(const uint8_t *text, size_t text_length, uint64_t first, int64_t (*misses)[2], size_t runs,
                      uint32_t *line) {
    jabulghi::status is = jabulghi::play(text, text_length, first, misses, runs);
    *line = (uint32_t)is.line();
    return is.number();
}
uint32_t through_window_make_members(uint32_t *size, uint32_t *held, uint32_t *place, int16_t *places, int64_t *sum,
                                     int64_t *squares, uint32_t n){ON_WINDOW(make(n))} uint32_t
    through_window_push_members(uint32_t *size, uint32_t *held, uint32_t *place, int16_t *places, int64_t *sum,
                                int64_t *squares, int16_t sample){ON_WINDOW(push(sample))} uint32_t
    through_window_push_all_members(uint32_t *size, uint32_t *held, uint32_t *place, int16_t *places, int64_t *sum,
                                    int64_t *squares, const int16_t *samples,
                                    size_t length){ON_WINDOW(push_all(samples, length))} uint32_t
    through_marks_save_members(uint32_t *used, uint32_t *lengths, uint8_t *names, jabulghi_record *records,
                               const jabulghi_record *record, const uint8_t *name, size_t length) {
    marks kept = marks_of(used, lengths, names, records);
    jabulghi::status is = kept.save(generator(*record), (const char *)name, length);
    return put(kept, used, lengths, names, records, is);
}
uint32_t through_marks_return_members(const uint32_t *used, const uint32_t *lengths, const uint8_t *names,
                                      const jabulghi_record *records, jabulghi_record *record, const uint8_t *name,
                                      size_t length) {
    generator rig(*record);
    jabulghi::status is = marks_of(used, lengths, names, records).return_to(rig, (const char *)name, length);
    return kept(record, rig, is);
}
uint32_t through_marks_drop_members(uint32_t *used, uint32_t *lengths, uint8_t *names, jabulghi_record *records,
                                    const uint8_t *name, size_t length) {
    marks kept = marks_of(used, lengths, names, records);
    jabulghi::status is = kept.drop((const char *)name, length);
    return put(kept, used, lengths, names, records, is);
}
}
