/* What the parts of `jabulghi tolerance` share. All lengths are in millimetres. */
#ifndef TOLERANCE_H
#define TOLERANCE_H

#include "traverse.h"

/* More runs are refused: each takes 16 bytes. */
#define MOST_RUNS 10000000

/* The figures that are told, in thousandths of the runs. */
#define QUANTILES 5
extern const unsigned THOUSANDTHS[QUANTILES];

typedef struct {
    double east, north;
} vector;
typedef struct {
    double east, north, both;
} covariance;

/* The ellipses of a covariance: their centre, the variances along the longer and the shorter axis, and the direction of
 * the longer one. */
typedef struct {
    vector centre;
    double longer, shorter, cosine, sine;
} ellipse;

/* How many runs lie in each step of a measure: above (at - 1) and up to at times the width; in rising order. */
typedef struct {
    uint64_t at, count;
} bar;
typedef struct {
    size_t size;
    bar *bars;
} histogram;

/* What is kept of the noise of many runs, each run's miss less the miss without noise: its sums, three histograms, and
 * how many runs are as far out as the miss that is judged, by the ellipse and by distance. Two of them add up to that
 * of all their runs. */
enum { EAST, NORTH, DISTANCE, MEASURES };
typedef struct {
    uint64_t first, runs, width, beyond, farther;
    vector sum, squares;
    double product;
    histogram of[MEASURES];
} tally;

/* A loop, the job that is played and what is asked of it: misses is NULL where the runs were merged. More is what the
 * errors of stations and of the clino add to the noise of each run. */
typedef struct {
    survey s;
    traverse shots;
    uint8_t *job;
    size_t length;
    uint64_t first, runs, jobs, loop;
    int64_t own[2], (*misses)[2];
    vector miss;
    bool given;
    covariance more;
} task;

/* The closed form: errors of legs that are independent, added up. */
typedef struct {
    covariance spread;
    double rms[MEASURES], within[MEASURES][QUANTILES];
} closed_form;

/* One leg whose correction would bring the miss within the noise; remains is the share of sound surveys that would then
 * miss by as much. */
typedef struct {
    size_t leg;
    bool bearing;
    double correction, remains;
} candidate;

/* What the words of the command line may ask for, in this order. */
enum {
    TOLERANCE_SIGMA,
    TOLERANCE_SEEDS,
    TOLERANCE_RUNS,
    TOLERANCE_FIRST,
    TOLERANCE_RUN,
    TOLERANCE_MISS,
    TOLERANCE_THREADS,
    TOLERANCE_LOOP,
    TOLERANCE_CSV,
    TOLERANCE_JSON,
    TOLERANCE_SVG,
    TOLERANCE_MERGE,
    TOLERANCE_INTO,
    TOLERANCE_ASKED
};

/* tolerance_steps.c: takes the options out of the words; the numbers among them; reads the loop and makes the job that
 * is played; what is kept of its runs; frees all but the
 * source. */
int options_of_tolerance(int *count, char **words, option asked[TOLERANCE_ASKED]);
int numbers_of_tolerance(const option asked[TOLERANCE_ASKED], task *t);
int prepare_tolerance(const option asked[TOLERANCE_ASKED], text source, task *t);
int tally_runs(const task *t, tally *kept);
void free_task(task *t);

/* prepare.c: makes the job that is played and its miss without noise; whatever is refused is refused here, too large a
 * number of a run by the name of the option that gave it. Prints the job of one run. */
int prepare(task *t, const char *given);
int put_run(const task *t);

/* plays.c: plays all runs, by as many threads as are asked for; room for them, and some of them. stations.c: what the
 * errors of stations and of the clino add, and that noise for some runs; the number of a refusal. */
int play_all(task *t);
int room_for_runs(task *t);
uint32_t play_some_runs(void *context, uint64_t start, size_t runs);
covariance more_of(const task *t);
uint32_t add_more(const task *t, uint64_t start, size_t runs);

/* statistics.c: the noise of a run, its miss less the miss without noise; what is kept of all runs, and figures of it.
 */
vector noise_of(const task *t, uint64_t run);
int tally_of(const task *t, uint64_t width, tally *kept);
vector mean_of(const tally *kept);
covariance covariance_of(const tally *kept);
double rms_of(const tally *kept, int measure);
uint64_t within_of(const tally *kept, int measure, unsigned thousandths);

/* ellipse.c */
ellipse ellipse_of(covariance spread, vector centre);
double reach(const ellipse *e, vector of);
ellipse ellipse_of_runs(const tally *kept);
bool is_point(const ellipse *e);
bool is_line(const ellipse *e);

/* closed.c */
closed_form closed_form_of(const task *t);
uint64_t width_for(const closed_form *closed);

/* candidates.c: the best first; the count of them; and whether one is near the limit of 5 %. */
bool is_near_limit(const candidate *c);
size_t candidates_of(const task *t, const ellipse *e, candidate found[2 * MOST_SHOTS]);

/* Below 5 % of sound surveys a miss is worth a look, below 0.1 % it is likely a blunder. */
enum { DOUBTFUL = 50, UNLIKELY = 1 };

/* report.c: for a person; and whether a share of the runs is below a limit in thousandths, the judged miss being
 * counted as one run more. */
void report(const task *t, const tally *kept, growing *to);
bool is_below(const tally *kept, unsigned thousandths);

/* json.c: the figures, and what merge.c reads again; csv.c: each run's miss; svg.c: a picture. */
void report_json(const task *t, const tally *kept, growing *to);
int put_csv(const task *t);
void draw(const task *t, const tally *kept, growing *to);

/* parts.c: reads a part that report_json wrote, which a NUL ends. merge.c: adds parts up; the loop that they play. */
typedef struct {
    text job;
    vector miss;
    double station, clino;
    covariance more;
    tally runs;
} part;
bool read_part(const char *bytes, size_t length, part *read);
int merge(int count, char **names, task *t, tally *all);

#endif
