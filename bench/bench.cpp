// Times of the static library's calls beside plain C and other generators of normal samples. All contestants take
// turns, a short run each.
#include "jabulghi.h"
#include "plain.h"
#include <algorithm>
#include <cmath>
#include <cstdio>
#include <cstdlib>
#include <cstring>
#include <ctime>
#include <functional>
#include <random>
#include <string>
#include <vector>
#ifdef HAVE_GSL
#include <gsl/gsl_randist.h>
#include <gsl/gsl_rng.h>
#endif
#ifdef HAVE_BOOST
#include <boost/random/normal_distribution.hpp>
#include <boost/random/taus88.hpp>
#endif
#ifdef HAVE_RAND_DISTR
extern "C" void rand_distr_block(int16_t *block, size_t length);
#endif

static const size_t LENGTH = 4096; // samples of a buffer
static const int RUNS = 1001;

static const char ZIGGURAT[] =
    "GSL `gsl_ran_gaussian_ziggurat` over `gsl_rng_taus`"; // what the others are compared with

static const std::string WIDE = "`jabulghi_block18` of " + std::to_string(LENGTH);

static int16_t buffer[LENGTH];
static int32_t wide[LENGTH];

struct Unit {
    const char *name;
    double in_a_second;
};
static const Unit A_SAMPLE = {"ns a sample", 1e9}, A_WIDE_SAMPLE = A_SAMPLE, A_PAIR = {"ns a pair", 1e9},
                  A_CALL = {"µs a call", 1e6}, A_PUSH = {"ns a push", 1e9}, A_PLAY = {"µs a play", 1e6};

// One of those that take turns: what its time is of and how many of these a run has; then the seconds of one, least
// first.
struct Contestant {
    std::string name;
    const Unit &unit;
    double count;
    std::function<void()> run;
    std::vector<double> seconds = {};

    double least() const { return seconds[0]; }
    double median() const { return seconds[RUNS / 2]; }
    double ninth_tenth() const { return seconds[RUNS * 9 / 10]; }
};
typedef std::vector<Contestant> Contestants;

static void fail(const char *what) {
    printf("DIFFERENT: %s\n", what);
    exit(1);
}

static double seconds_of(clockid_t clock) {
    timespec now;
    clock_gettime(clock, &now);
    return now.tv_sec + now.tv_nsec * 1e-9;
}

// ---- what is timed

static const uint32_t SEEDS[6] = {123456789, 987654321, 192837465, 2, 8, 16};

static jabulghi_record seeded() {
    jabulghi_record record;
    if (jabulghi_seed(SEEDS[0], SEEDS[1], SEEDS[2], SEEDS[3], SEEDS[4], SEEDS[5], &record) != JABULGHI_OK)
        fail("the seeds");
    return record;
}

static jabulghi_record ours = seeded();

// The buffer by blocks of a length.
static void fill_by(size_t length) {
    for (size_t at = 0; at < LENGTH; at += length) { jabulghi_block(&ours, buffer + at, length); }
}

static int16_t rounded(double x) { return (int16_t)lrint(x); }

// The same with no call: a sum with 1.5 times 2^52 has the nearest whole number in its last bits.
[[maybe_unused]] static int16_t rounded_by_sum(double x) {
    double sum = x + 0x1.8p52;
    int16_t last;
    memcpy(&last, &sum, sizeof last);
    return last;
}

// The buffer from normal samples, rounded to units of 2^-11 of a standard deviation.
template <class Normal, class Rounded> static void fill_from(Normal normal, Rounded rounded) {
    for (int16_t &sample : buffer) { sample = rounded(normal() * 2048); }
}

static void add_ours(Contestants &all, const std::vector<size_t> &lengths) {
    for (size_t length : lengths) {
        all.push_back(
            {"`jabulghi_block` of " + std::to_string(length), A_SAMPLE, LENGTH, [length] { fill_by(length); }});
    }
}

// Samples of 18 bits, beside the block of as many samples of 16 bits.
static void add_wide(Contestants &all) {
    all.push_back({WIDE, A_WIDE_SAMPLE, LENGTH, [] { jabulghi_block18(&ours, wide, LENGTH); }});
}

static void add_plain(Contestants &all) {
    static uint32_t by_double[6], by_bits[6];
    for (uint32_t *registers : {by_double, by_bits}) { memcpy(registers, SEEDS, sizeof SEEDS); }
    all.push_back({"the same steps in plain C, root by floating point", A_SAMPLE, LENGTH,
                   [] { plain_block(by_double, buffer, LENGTH); }});
    all.push_back({"the same steps in plain C, root bit by bit", A_SAMPLE, LENGTH,
                   [] { plain_block_bits(by_bits, buffer, LENGTH); }});
}

static void add_others(Contestants &all) {
#ifdef HAVE_GSL
    static gsl_rng *rng = gsl_rng_alloc(gsl_rng_taus);
    static auto ziggurat = [] { return gsl_ran_gaussian_ziggurat(rng, 1); };
    static auto polar = [] { return gsl_ran_gaussian(rng, 1); };
    all.push_back({ZIGGURAT, A_SAMPLE, LENGTH, [] { fill_from(ziggurat, rounded); }});
    all.push_back({"the same, rounded by a sum in place of `lrint`", A_SAMPLE, LENGTH,
                   [] { fill_from(ziggurat, rounded_by_sum); }});
    all.push_back({"GSL `gsl_ran_gaussian` over `gsl_rng_taus`", A_SAMPLE, LENGTH, [] { fill_from(polar, rounded); }});
#endif
#ifdef HAVE_BOOST
    static boost::random::taus88 taus;
    static boost::random::normal_distribution<double> boost_normal;
    static auto boost_next = [] { return boost_normal(taus); };
    all.push_back(
        {"Boost `normal_distribution` over `taus88`", A_SAMPLE, LENGTH, [] { fill_from(boost_next, rounded); }});
    all.push_back({"the same, rounded by a sum", A_SAMPLE, LENGTH, [] { fill_from(boost_next, rounded_by_sum); }});
#endif
#ifdef HAVE_RAND_DISTR
    all.push_back({"Rust `rand_distr::StandardNormal` over `SmallRng`, rounded by a sum", A_SAMPLE, LENGTH,
                   [] { rand_distr_block(buffer, LENGTH); }});
#endif
    static std::mt19937 twister;
    static std::normal_distribution<double> normal;
    static auto next = [] { return normal(twister); };
    all.push_back(
        {"C++ `std::normal_distribution` over `std::mt19937`", A_SAMPLE, LENGTH, [] { fill_from(next, rounded); }});
}

// Single pairs from a record, and from k and v as they are drawn.
static void add_pairs(Contestants &all) {
    static std::vector<uint64_t> numbers(LENGTH / 2);
    std::mt19937_64 twister;
    for (uint64_t &z : numbers) { z = twister(); }
    all.push_back({"`jabulghi_pair`", A_PAIR, LENGTH / 2.0, [] {
                       for (size_t at = 0; at < LENGTH; at += 2) jabulghi_pair(&ours, buffer + at);
                   }});
    all.push_back({"`jabulghi_sample`", A_PAIR, LENGTH / 2.0, [] {
                       for (size_t j = 0; j < LENGTH / 2; j++)
                           jabulghi_sample(numbers[j] >> 16, numbers[j] & 65535, buffer + 2 * j);
                   }});
}

static void add_job(Contestants &all) {
    static std::string text = "(seeds (a 123456789 987654321 192837465) (b 2 8 16))\n(sigma 4 10)\n";
    for (int shot = 0; shot < 500; shot++) {
        text += "(shot A" + std::to_string(shot) + " A" + std::to_string(shot + 1) + " 12345 4500)\n";
    }
    static uint8_t listing[JABULGHI_LISTING_ROOM];
    auto list = [] {
        uint32_t line;
        size_t length;
        return jabulghi_list((const uint8_t *)text.data(), text.size(), listing, sizeof listing, &line, &length);
    };
    if (list() != JABULGHI_OK) fail("the job");
    all.push_back({"`jabulghi_list`, a job of 500 shots", A_CALL, 1, list});
}

// Plays of a loop of 40 legs, beside the texts' way: the job written with the play's registers, listed, and the listing
// summed.
static const size_t LEGS = 40, PLAYS = 1000;
static const std::string PLAY = "`jabulghi_play`, a loop of " + std::to_string(LEGS) + " legs";
static const std::string BY_TEXTS = "the same by `jabulghi_list` and `jabulghi_misclosure` of a job a play";
static int64_t misses[PLAYS][2];

static std::string loop_after(const jabulghi_record &r) {
    char seeds[100];
    snprintf(seeds, sizeof seeds, "(seeds (a %u %u %u) (b %u %u %u))\n(sigma 4 10)\n", r.a[0], r.a[1], r.a[2], r.b[0],
             r.b[1], r.b[2]);
    static std::string shots;
    if (shots.empty()) {
        for (size_t leg = 0; leg < LEGS; leg++) {
            shots += "(shot A" + std::to_string(leg) + " A" + std::to_string((leg + 1) % LEGS) + " 12345 " +
                     std::to_string(leg * 65536 / LEGS) + ")\n";
        }
    }
    return seeds + shots;
}

static void play(uint64_t first, size_t runs) {
    static const std::string text = loop_after(seeded());
    uint32_t line;
    if (jabulghi_play((const uint8_t *)text.data(), text.size(), first, misses, runs, &line) != JABULGHI_OK)
        fail("plays");
}

static void play_by_texts(jabulghi_record &record, int64_t *millimetres) {
    static uint8_t listing[JABULGHI_LISTING_ROOM];
    std::string text = loop_after(record);
    uint32_t line;
    size_t length;
    int64_t sums[2];
    jabulghi_list((const uint8_t *)text.data(), text.size(), listing, sizeof listing, &line, &length);
    if (jabulghi_misclosure(listing, length, sums, millimetres, &line) != JABULGHI_OK) fail("a play by texts");
    jabulghi_skip(&record, LEGS);
}

static void check_plays() {
    jabulghi_record record = seeded();
    play(0, 50);
    for (size_t j = 0; j < 50; j++) {
        int64_t expected[2];
        play_by_texts(record, expected);
        if (memcmp(misses[j], expected, sizeof expected) != 0) fail("plays and texts");
    }
}

static void add_plays(Contestants &all) {
    all.push_back({PLAY, A_PLAY, (double)PLAYS, [] { play(0, PLAYS); }});
    all.push_back({BY_TEXTS, A_PLAY, 10, [] {
                       static jabulghi_record record = seeded();
                       int64_t millimetres[2];
                       for (int j = 0; j < 10; j++) play_by_texts(record, millimetres);
                   }});
}

// From count 0, so that none is refused; beside a skip the same pairs drawn.
static void add_skips(Contestants &all, const std::vector<uint64_t> &numbers) {
    const int calls = 10;
    static jabulghi_record record = seeded();
    for (uint64_t n : numbers) {
        all.push_back({"`jabulghi_skip` of " + std::to_string(n) + " pairs", A_CALL, calls, [n] {
                           for (int j = 0; j < calls; j++) {
                               record.count = 0;
                               jabulghi_skip(&record, n);
                           }
                       }});
    }
}

static void add_thousand(Contestants &all) {
    all.push_back({"`jabulghi_block` of 1000 pairs", A_CALL, 1, [] { jabulghi_block(&ours, buffer, 2000); }});
}

// Pushes onto a full window; what is pushed are samples of ours.
static void add_windows(Contestants &all) {
    static jabulghi_window window;
    static std::vector<int16_t> samples(LENGTH);
    jabulghi_record record = seeded();
    jabulghi_block(&record, samples.data(), LENGTH);
    for (uint32_t n : {1000, 4096}) {
        std::string of = " onto a window of " + std::to_string(n);
        all.push_back({"`jabulghi_window_push_all` of 4096" + of, A_PUSH, LENGTH, [n] {
                           if (window.size != n) jabulghi_window_make(&window, n);
                           jabulghi_window_push_all(&window, samples.data(), LENGTH);
                       }});
        all.push_back({"`jabulghi_window_push`" + of, A_PUSH, LENGTH, [n] {
                           if (window.size != n) jabulghi_window_make(&window, n);
                           for (int16_t sample : samples) jabulghi_window_push(&window, sample);
                       }});
    }
}

// ---- what has to be equal first

static void check_plain() {
    jabulghi_record record = seeded();
    uint32_t by_double[6], by_bits[6];
    memcpy(by_double, SEEDS, sizeof SEEDS);
    memcpy(by_bits, SEEDS, sizeof SEEDS);
    static int16_t expected[LENGTH];
    for (int j = 0; j < 50; j++) {
        jabulghi_block(&record, expected, LENGTH);
        plain_block(by_double, buffer, LENGTH);
        if (memcmp(buffer, expected, sizeof buffer) != 0) fail("samples of plain C");
        plain_block_bits(by_bits, buffer, LENGTH);
        if (memcmp(buffer, expected, sizeof buffer) != 0) fail("samples of plain C, root by bits");
    }
}

#if defined HAVE_GSL || defined HAVE_BOOST
// The draws of stream a, which are seen in a record: the exclusive-or of its registers after each pair.
static void check_draws(const char *what, const std::function<uint32_t()> &draw) {
    jabulghi_record record = seeded();
    int16_t two[2];
    for (size_t j = 0; j < LENGTH; j++) {
        jabulghi_pair(&record, two);
        if (draw() != (record.a[0] ^ record.a[1] ^ record.a[2])) fail(what);
    }
    printf("The first %zu draws of %s from the same registers are ours.\n", LENGTH, what);
}
#endif

static void check_others() {
#ifdef HAVE_GSL
    // the state of gsl_rng_taus is its three registers, each an unsigned long
    gsl_rng *rng = gsl_rng_alloc(gsl_rng_taus);
    unsigned long registers[3] = {SEEDS[0], SEEDS[1], SEEDS[2]};
    if (gsl_rng_size(rng) != sizeof registers) fail("the size of GSL's state");
    memcpy(gsl_rng_state(rng), registers, sizeof registers);
    check_draws("GSL's gsl_rng_taus", [rng] { return (uint32_t)gsl_rng_get(rng); });
#endif
#ifdef HAVE_BOOST
    boost::random::taus88 taus;
    const uint32_t *from = SEEDS;
    taus.seed(from, SEEDS + 3);
    check_draws("Boost's taus88", [&taus] { return taus(); });
#endif
}

static bool same_record(const jabulghi_record &x, const jabulghi_record &y) { return memcmp(&x, &y, sizeof x) == 0; }

static void check_skips() {
    static int16_t block[2000];
    jabulghi_record drawn = seeded(), skipped = drawn, twice = drawn;
    jabulghi_block(&drawn, block, 2000);
    jabulghi_skip(&skipped, 1000);
    if (!same_record(drawn, skipped)) fail("the record after a skip and after drawing");
    skipped = twice;
    jabulghi_skip(&skipped, UINT64_MAX);
    jabulghi_skip(&twice, UINT64_MAX / 2);
    jabulghi_skip(&twice, UINT64_MAX / 2 + 1);
    if (!same_record(twice, skipped)) fail("the record after one skip and after two");
    if (skipped.count != UINT64_MAX || jabulghi_skip(&skipped, 1) != JABULGHI_COUNT_FULL)
        fail("the count of the most pairs");
}

// Samples of 18 bits are normal and end in the record that those of 16 bits end in.
static void check_wide() {
    jabulghi_record narrow_end = seeded(), wide_end = narrow_end;
    jabulghi_block(&narrow_end, buffer, LENGTH);
    jabulghi_block18(&wide_end, wide, LENGTH);
    if (!same_record(narrow_end, wide_end)) fail("the record after a block of 18 bits");
    for (size_t j = 0; j < LENGTH; j++) {
        if (abs(wide[j] - 4 * buffer[j]) > 2) fail("samples of 18 bits");
    }
}

// Many at once and one by one leave the same window, with the sums of the last N.
static void check_windows() {
    static jabulghi_window at_once, one_by_one;
    jabulghi_record record = seeded();
    const uint32_t n = 1000;
    jabulghi_window_make(&at_once, n);
    jabulghi_window_make(&one_by_one, n);
    jabulghi_block(&record, buffer, LENGTH);
    if (jabulghi_window_push_all(&at_once, buffer, LENGTH) != JABULGHI_OK) fail("many pushes");
    for (int16_t sample : buffer) jabulghi_window_push(&one_by_one, sample);
    int64_t sum = 0, squares = 0;
    for (size_t j = LENGTH - n; j < LENGTH; j++) {
        sum += buffer[j];
        squares += (int64_t)buffer[j] * buffer[j];
    }
    for (const jabulghi_window *each : {&at_once, &one_by_one}) {
        if (each->held != n || each->sum != sum || each->squares != squares) fail("the sums of a window");
    }
}

// What is timed a sample leaves normal samples in the buffer: their mean square is about 1.
static void check_spread(const Contestants &all) {
    for (const Contestant &each : all) {
        if (&each.unit != &A_SAMPLE) continue;
        std::fill(buffer, buffer + LENGTH, 0);
        each.run();
        double squares = 0;
        for (int16_t sample : buffer) squares += (double)sample * sample / (2048.0 * 2048);
        if (fabs(squares / LENGTH - 1) > 0.15) fail(each.name.c_str());
    }
}

// ---- turns and the table

// The same work each time, on registers alone, several multiplications at once.
static void calibrate() {
    static volatile uint64_t kept = 1;
    uint64_t x[4] = {kept, kept + 1, kept + 2, kept + 3};
    for (int j = 0; j < 10000; j++) {
        for (uint64_t &each : x) each = each * 6364136223846793005u + 1442695040888963407u;
    }
    kept = x[0] ^ x[1] ^ x[2] ^ x[3];
}

// One short run of each in turn, RUNS times after one turn that is not counted.
static void take_turns(Contestants &all) {
    for (int turn = -1; turn < RUNS; turn++) {
        for (Contestant &each : all) {
            each.run(); // not timed: what it needs is in the cache then
            double start = seconds_of(CLOCK_MONOTONIC);
            each.run();
            double seconds = seconds_of(CLOCK_MONOTONIC) - start;
            if (turn >= 0) each.seconds.push_back(seconds / each.count);
        }
    }
    for (Contestant &each : all) { std::sort(each.seconds.begin(), each.seconds.end()); }
}

static const Contestant *named(const Contestants &all, const std::string &name) {
    auto found = std::find_if(all.begin(), all.end(), [&](const Contestant &each) { return each.name == name; });
    return found == all.end() ? nullptr : &*found;
}

// In Markdown. The ratios, of least times and of medians, are for times a sample where GSL is there.
static void print_table(const Contestants &all) {
    const Contestant *gsl = named(all, ZIGGURAT);
    printf("\n| | | least | median | to GSL's ziggurat, least | median |\n|---|---|---:|---:|---:|---:|\n");
    for (const Contestant &each : all) {
        double scale = each.unit.in_a_second;
        printf("| %s | %s | %.2f | %.2f |", each.name.c_str(), each.unit.name, each.least() * scale,
               each.median() * scale);
        if (gsl != nullptr && &each.unit == &A_SAMPLE) {
            printf(" %.2f | %.2f |\n", each.least() / gsl->least(), each.median() / gsl->median());
        } else {
            printf(" | |\n");
        }
    }
}

// Quiet: others had no work before the run, took no processor from it, and the fixed loop took nearly the same time in
// nine of ten runs.
static void print_quiet(double load, double share, const Contestant &loop) {
    double spread = loop.ninth_tenth() / loop.least();
    bool quiet = load < 1 && share > 0.98 && spread < 1.05;
    printf("The machine was %s: load %.2f before the run; the run had %.0f %% of a processor; nine of ten runs of a "
           "fixed loop took at most\n"
           "%.2f of the least time.\n",
           quiet ? "quiet" : "NOT QUIET", load, share * 100, spread);
}

static Contestants contestants() {
    Contestants all;
    add_ours(all, {LENGTH, 64, 16, 2});
    add_wide(all);
    add_plain(all);
    add_others(all);
    add_pairs(all);
    add_job(all);
    add_plays(all);
    add_skips(all, {UINT64_MAX, 1000});
    add_thousand(all);
    add_windows(all);
    return all;
}

// For the data sheet: blocks of every power of two, the others, calls, and skips of as many pairs as just fit a number
// of bits.
static Contestants of_sheet() {
    Contestants all;
    std::vector<size_t> lengths;
    for (size_t length = LENGTH; length >= 2; length /= 2) lengths.push_back(length);
    std::vector<uint64_t> numbers;
    for (int bits : {2, 4, 6, 8, 10, 12, 16, 20, 24, 32, 40, 48, 56, 64}) numbers.push_back(UINT64_MAX >> (64 - bits));
    add_ours(all, lengths);
    add_wide(all);
    add_others(all);
    add_pairs(all);
    add_job(all);
    add_plays(all);
    add_windows(all);
    add_skips(all, numbers);
    return all;
}

// For a program to read.
static void print_fields(const Contestants &all) {
    for (const Contestant &each : all)
        printf("%s\t%s\t%.4f\n", each.name.c_str(), each.unit.name, each.least() * each.unit.in_a_second);
}

// With the argument `sheet` it times what the data sheet shows, and prints the least of each in fields.
int main(int argc, char **argv) {
    bool sheet = argc > 1 && strcmp(argv[1], "sheet") == 0;
    double load = 0;
    getloadavg(&load, 1);
    plain_tables();
    check_plain();
    check_others();
    check_skips();
    check_wide();
    check_windows();
    check_plays();
    Contestants all = sheet ? of_sheet() : contestants();
    check_spread(all);
    all.push_back({"a fixed loop", A_CALL, 1, calibrate});
    double start = seconds_of(CLOCK_MONOTONIC), used = seconds_of(CLOCK_PROCESS_CPUTIME_ID);
    take_turns(all);
    double share = (seconds_of(CLOCK_PROCESS_CPUTIME_ID) - used) / (seconds_of(CLOCK_MONOTONIC) - start);
    Contestant loop = all.back();
    all.pop_back();
    if (sheet) {
        print_fields(all);
        return 0;
    }
    print_table(all);
    const Contestant *eighteen = named(all, WIDE);
    printf("\nA block of samples of 18 bits takes %.2f of the time of one of 16 bits by the least and %.2f by the "
           "median.\n",
           eighteen->least() / all[0].least(), eighteen->median() / all[0].median());
    const Contestant *play = named(all, PLAY), *texts = named(all, BY_TEXTS);
    printf("\nA play takes %.2f times a block's sample a leg by the least and %.2f by the median (4 at most), and the "
           "texts' way %.1f times as long.\n",
           play->least() / LEGS / all[0].least(), play->median() / LEGS / all[0].median(),
           texts->least() / play->least());
    printf("\nSamples of others are rounded to i16, in units of 2^-11. All take turns; a time is the least or the "
           "median of %d short runs.\n"
           "To draw 2^64 - 1 pairs by blocks of %zu would take %.0f years.\n",
           RUNS, LENGTH, 2 * all[0].least() * UINT64_MAX / (365.25 * 86400));
    print_quiet(load, share, loop);
}
