// The calls of jabulghi.h from C++11 on: classes for what the caller keeps, an answer without exceptions, and std::span from C++20 on. Link libjabulghi.
//
//     jabulghi::result<jabulghi::generator> rig = jabulghi::generator::seed(3770694558, 3532774216, 2901327257, 4093209576, 2137023497, 2889436789);
//     if (!rig) return rig.number(); // rig.words() says why
//     std::int16_t samples[1000];
//     rig->block(samples, 1000); // each s is s / 2048 standard deviations
//
// Each call does what jabulghi.h says of it; a pointer and a length are passed on as they are. Nothing is allocated or thrown.
#ifndef JABULGHI_HPP
#define JABULGHI_HPP

#include "jabulghi.h"
#include "jabulghi_refusals.hpp"
#include <cstddef>
#include <cstdint>
#if defined(__has_include)
#if __cplusplus >= 202002L && __has_include(<span>)
#include <span>
#define JABULGHI_HAS_SPAN 1
#endif
#endif

namespace jabulghi {

/// What a call returned: 0 where it was accepted, else the number of the refusal; for a text the bad line, or 0.
class status {
public:
    explicit status(std::uint32_t number, std::size_t line = 0) noexcept : number_(number), line_(line) {}
    explicit operator bool() const noexcept { return number_ == JABULGHI_OK; }
    std::uint32_t number() const noexcept { return number_; }
    std::size_t line() const noexcept { return line_; }
    const char *words() const noexcept { return jabulghi::words(number_); }

private:
    std::uint32_t number_;
    std::size_t line_;
};

/// A status with a value. The value is there after a refusal too: what the call wrote.
template <class T> class result : public status {
public:
    result(status is, const T &value) noexcept : status(is), value_(value) {}
    T &operator*() noexcept { return value_; }
    const T &operator*() const noexcept { return value_; }
    T *operator->() noexcept { return &value_; }
    const T *operator->() const noexcept { return &value_; }

private:
    T value_;
};

template <class T> struct pair_of { T first, second; };
typedef pair_of<std::int16_t> pair16;
typedef pair_of<std::int32_t> pair32;

/// A generator. Its record can be kept and put back.
class generator {
public:
    generator() noexcept : record() {}
    explicit generator(const jabulghi_record &kept) noexcept : record(kept) {}
    static result<generator> seed(std::uint32_t a0, std::uint32_t a1, std::uint32_t a2, std::uint32_t b0, std::uint32_t b1, std::uint32_t b2) noexcept {
        generator made;
        status is(jabulghi_seed(a0, a1, a2, b0, b1, b2, &made.record));
        return result<generator>(is, made);
    }
    result<pair16> pair() noexcept { return two<std::int16_t>(jabulghi_pair); }
    result<pair32> pair18() noexcept { return two<std::int32_t>(jabulghi_pair18); }
    status block(std::int16_t *samples, std::size_t length) noexcept { return status(jabulghi_block(&record, samples, length)); }
    status block18(std::int32_t *samples, std::size_t length) noexcept { return status(jabulghi_block18(&record, samples, length)); }
    status look(std::int16_t *samples, std::size_t length) const noexcept { return status(jabulghi_look(&record, samples, length)); }
    status look18(std::int32_t *samples, std::size_t length) const noexcept { return status(jabulghi_look18(&record, samples, length)); }
    status take(std::int16_t *samples, std::size_t length) noexcept { return status(jabulghi_take(&record, samples, length)); }
    status take18(std::int32_t *samples, std::size_t length) noexcept { return status(jabulghi_take18(&record, samples, length)); }
    status skip(std::uint64_t pairs) noexcept { return status(jabulghi_skip(&record, pairs)); }
    status ask(std::uint32_t pairs) noexcept { return status(jabulghi_ask(&record, pairs)); }
    status give_up() noexcept { return status(jabulghi_give_up(&record)); }
#ifdef JABULGHI_HAS_SPAN
    status block(std::span<std::int16_t> samples) noexcept { return block(samples.data(), samples.size()); }
    status block18(std::span<std::int32_t> samples) noexcept { return block18(samples.data(), samples.size()); }
    status look(std::span<std::int16_t> samples) const noexcept { return look(samples.data(), samples.size()); }
    status look18(std::span<std::int32_t> samples) const noexcept { return look18(samples.data(), samples.size()); }
    status take(std::span<std::int16_t> samples) noexcept { return take(samples.data(), samples.size()); }
    status take18(std::span<std::int32_t> samples) noexcept { return take18(samples.data(), samples.size()); }
#endif
    jabulghi_record record;

private:
    template <class T> result<pair_of<T>> two(std::uint32_t (*call)(jabulghi_record *, T *)) noexcept {
        T samples[2];
        status is(call(&record, samples));
        return result<pair_of<T>>(is, pair_of<T>{samples[0], samples[1]});
    }
};

/// The sums of the latest samples.
class window {
public:
    window() noexcept : kept() {}
    status make(std::uint32_t size) noexcept { return status(jabulghi_window_make(&kept, size)); }
    status push(std::int16_t sample) noexcept { return status(jabulghi_window_push(&kept, sample)); }
    status push_all(const std::int16_t *samples, std::size_t length) noexcept { return status(jabulghi_window_push_all(&kept, samples, length)); }
#ifdef JABULGHI_HAS_SPAN
    status push_all(std::span<const std::int16_t> samples) noexcept { return push_all(samples.data(), samples.size()); }
#endif
    jabulghi_window kept;
};

/// Up to 16 places of generators, under names.
class marks {
public:
    marks() noexcept : kept() {}
    status save(const generator &from, const char *name, std::size_t length) noexcept { return status(jabulghi_marks_save(&kept, &from.record, name, length)); }
    status return_to(generator &to, const char *name, std::size_t length) const noexcept { return status(jabulghi_marks_return(&kept, &to.record, name, length)); }
    status drop(const char *name, std::size_t length) noexcept { return status(jabulghi_marks_drop(&kept, name, length)); }
#ifdef JABULGHI_HAS_SPAN
    status save(const generator &from, std::span<const char> name) noexcept { return save(from, name.data(), name.size()); }
    status return_to(generator &to, std::span<const char> name) const noexcept { return return_to(to, name.data(), name.size()); }
    status drop(std::span<const char> name) noexcept { return drop(name.data(), name.size()); }
#endif
    jabulghi_marks kept;
};

/// The two samples of k and v.
inline result<pair16> sample(std::uint64_t k, std::uint32_t v) noexcept {
    std::int16_t samples[2];
    status is(jabulghi_sample(k, v, samples));
    return result<pair16>(is, pair16{samples[0], samples[1]});
}
inline result<pair32> sample18(std::uint64_t k, std::uint32_t v) noexcept {
    std::int32_t samples[2];
    status is(jabulghi_sample18(k, v, samples));
    return result<pair32>(is, pair32{samples[0], samples[1]});
}

/// The listing of a job; the value is its length.
inline result<std::size_t> list(const std::uint8_t *job, std::size_t job_length, std::uint8_t *listing, std::size_t listing_length) noexcept {
    std::uint32_t line = 0;
    std::size_t length = 0;
    std::uint32_t number = jabulghi_list(job, job_length, listing, listing_length, &line, &length);
    return result<std::size_t>(status(number, line), length);
}

/// The shot lines of a Survex text's level legs; the value is their length.
inline result<std::size_t> legs(const std::uint8_t *survey, std::size_t survey_length, std::uint8_t *shots, std::size_t shots_length) noexcept {
    std::size_t line = 0, length = 0;
    std::uint32_t number = jabulghi_legs(survey, survey_length, shots, shots_length, &line, &length);
    return result<std::size_t>(status(number, line), length);
}

/// How far a loop misses: sums at 2^30 and millimetres, east and north.
struct miss { std::int64_t sums[2], millimetres[2]; };
inline result<miss> misclosure(const std::uint8_t *listing, std::size_t length) noexcept {
    miss found = {};
    std::uint32_t line = 0, number = jabulghi_misclosure(listing, length, found.sums, found.millimetres, &line);
    return result<miss>(status(number, line), found);
}

/// The same between two readings: east low, east high, north low, north high.
struct misses { std::int64_t sums[4], millimetres[4]; };
inline result<misses> intervals(const std::uint8_t *listing, std::size_t length) noexcept {
    misses found = {};
    std::uint32_t line = 0, number = jabulghi_intervals(listing, length, found.sums, found.millimetres, &line);
    return result<misses>(status(number, line), found);
}

/// How far a job's loop misses in each play from the first on: east and north in millimetres.
inline status play(const std::uint8_t *job, std::size_t job_length, std::uint64_t first, std::int64_t (*found)[2], std::size_t runs) noexcept {
    std::uint32_t line = 0, number = jabulghi_play(job, job_length, first, found, runs, &line);
    return status(number, line);
}

#ifdef JABULGHI_HAS_SPAN
inline result<std::size_t> list(std::span<const std::uint8_t> job, std::span<std::uint8_t> listing) noexcept {
    return list(job.data(), job.size(), listing.data(), listing.size());
}
inline result<std::size_t> legs(std::span<const std::uint8_t> survey, std::span<std::uint8_t> shots) noexcept {
    return legs(survey.data(), survey.size(), shots.data(), shots.size());
}
inline result<miss> misclosure(std::span<const std::uint8_t> listing) noexcept { return misclosure(listing.data(), listing.size()); }
inline result<misses> intervals(std::span<const std::uint8_t> listing) noexcept { return intervals(listing.data(), listing.size()); }
inline status play(std::span<const std::uint8_t> job, std::uint64_t first, std::span<std::int64_t[2]> found) noexcept {
    return play(job.data(), job.size(), first, found.data(), found.size());
}
#endif

} // namespace jabulghi

#endif
