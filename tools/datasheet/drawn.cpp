// Counts drawn samples: drawn WHO SEEDS SAMPLES, WHO being jabulghi, gsl-ziggurat, gsl-polar or boost, SEEDS pi or e.
// All are whole numbers of units of 2^-11 (others' doubles are rounded by lrint). Prints "value TAB how many" for each
// value, then for each kind of neighbours "which TAB sum TAB sum": of their products, and of those of their squares
// less 1, in standard deviations. Whole blocks alone are drawn.
#include "jabulghi.h"
#include <boost/random/normal_distribution.hpp>
#include <boost/random/taus88.hpp>
#include <cmath>
#include <cstdio>
#include <cstdlib>
#include <cstring>
#include <functional>
#include <gsl/gsl_randist.h>
#include <gsl/gsl_rng.h>
#include <string>

typedef std::function<void(int16_t *)> Fill;

static const int LENGTH = 4096;   // samples of a block
static const int LARGEST = 32767; // of 16 bits

static void fail(const std::string &what) {
    fprintf(stderr, "drawn: %s\n", what.c_str());
    exit(1);
}

// Six registers from the first binary places of a number's fraction; they are fit as they stand.
static const uint32_t *registers(const std::string &name) {
    static const uint32_t pi[6] = {0x243F6A88, 0x85A308D3, 0x13198A2E, 0x03707344, 0xA4093822, 0x299F31D0};
    static const uint32_t e[6] = {0xB7E15162, 0x8AED2A6A, 0xBF715880, 0x9CF4F3C7, 0x62E7160F, 0x38B4DA56};
    if (name != "pi" && name != "e") fail("seeds are pi or e");
    return name == "pi" ? pi : e;
}

static Fill ours(const uint32_t *r) {
    static jabulghi_record record;
    if (jabulghi_seed(r[0], r[1], r[2], r[3], r[4], r[5], &record) != JABULGHI_OK) fail("seeds refused");
    return [](int16_t *block) {
        if (jabulghi_block(&record, block, LENGTH) != JABULGHI_OK) fail("block refused");
    };
}

template <class Normal> static Fill rounded(Normal normal) {
    return [normal](int16_t *block) {
        for (int j = 0; j < LENGTH; j++) block[j] = (int16_t)lrint(normal() * 2048);
    };
}

// The others draw from the generator that our stream a is, with its registers.
static Fill filler(const std::string &who, const uint32_t *r) {
    static gsl_rng *rng = gsl_rng_alloc(gsl_rng_taus);
    unsigned long state[3] = {r[0], r[1], r[2]};
    if (gsl_rng_size(rng) != sizeof state) fail("the size of GSL's state");
    memcpy(gsl_rng_state(rng), state, sizeof state);
    static boost::random::taus88 taus;
    const uint32_t *from = r;
    taus.seed(from, r + 3);
    static boost::random::normal_distribution<double> normal;
    if (who == "jabulghi") return ours(r);
    if (who == "gsl-ziggurat") return rounded([] { return gsl_ran_gaussian_ziggurat(rng, 1); });
    if (who == "gsl-polar") return rounded([] { return gsl_ran_gaussian(rng, 1); });
    if (who != "boost") fail("who is jabulghi, gsl-ziggurat, gsl-polar or boost");
    return rounded([] { return normal(taus); });
}

// Sums over neighbours, which are two of the four samples of two pairs.
struct Products {
    const char *name;
    int from, to;
    long double plain = 0, squares = 0;

    // x are samples, y their squares less 1.
    void add(const double *x, const double *y) {
        double sum = 0, square = 0;
        for (int j = 0; j < LENGTH; j += 2) {
            sum += x[j + from] * x[j + to];
            square += y[j + from] * y[j + to];
        }
        plain += sum;
        squares += square;
    }
};

static Products products[] = {{"first and second of a pair", 0, 1},
                              {"second and the next first", 1, 2},
                              {"first and the next first", 0, 2},
                              {"second and the next second", 1, 3},
                              {"first and the next second", 0, 3}};

static uint64_t counts[2 * LARGEST + 2];

// One block, with the first pair of the next at its end.
static void count(const int16_t *block) {
    static double x[LENGTH + 2], y[LENGTH + 2];
    for (int j = 0; j < LENGTH + 2; j++) {
        x[j] = block[j] / 2048.0;
        y[j] = x[j] * x[j] - 1;
    }
    for (int j = 0; j < LENGTH; j++) counts[block[j] + LARGEST + 1]++;
    for (Products &each : products) each.add(x, y);
}

int main(int argc, char **argv) {
    if (argc != 4) fail("drawn WHO SEEDS SAMPLES");
    Fill fill = filler(argv[1], registers(argv[2]));
    long long blocks = static_cast<long long>(atof(argv[3]) / LENGTH);
    static int16_t two[2 * LENGTH];
    fill(two + LENGTH);
    for (long long j = 0; j < blocks; j++) {
        memcpy(two, two + LENGTH, LENGTH * sizeof *two);
        fill(two + LENGTH);
        count(two);
    }
    for (int value = -LARGEST; value <= LARGEST; value++) {
        if (counts[value + LARGEST + 1]) printf("%d\t%llu\n", value, (unsigned long long)counts[value + LARGEST + 1]);
    }
    for (const Products &each : products) { printf("%s\t%.6Lf\t%.6Lf\n", each.name, each.plain, each.squares); }
}
