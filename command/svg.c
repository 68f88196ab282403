/* A picture: the histogram of the noise's distance, and the cloud of the runs with its ellipses. Drawn in units of
 * which 1200 are the width. */
#include "tolerance.h"

#include "../survey/mathematics.h"
#include <inttypes.h>

#define COLUMNS 40
#define MOST_POINTS 2000

/* A panel: the place of its corners, and the values at its left, right, lower and upper edges. */
typedef struct {
    double left, right, top, bottom, x0, x1, y0, y1;
} panel;

static double across(const panel *p, double x) {
    return p->left + (x - p->x0) / (p->x1 - p->x0) * (p->right - p->left);
}
static double down(const panel *p, double y) {
    return p->bottom - (y - p->y0) / (p->y1 - p->y0) * (p->bottom - p->top);
}

/* A round step of which about five make a range. */
static double round_step(double range) {
    double power = pow(10, floor(log10(range / 5))), ratio = range / 5 / power;
    return (ratio < 1.5 ? 1 : ratio < 3.5 ? 2 : ratio < 7.5 ? 5 : 10) * power;
}

static void add_line(growing *to, double x1, double y1, double x2, double y2, const char *style) {
    add(to, "<line x1=\"%.1f\" y1=\"%.1f\" x2=\"%.1f\" y2=\"%.1f\" %s/>\n", x1, y1, x2, y2, style);
}

/* The frame, its ticks below and on the left, and the names of both axes. */
static void add_axes(growing *to, const panel *p, const char *below, const char *beside) {
    double step = round_step(p->x1 - p->x0), rise = round_step(p->y1 - p->y0);
    add(to, "<rect x=\"%.1f\" y=\"%.1f\" width=\"%.1f\" height=\"%.1f\" fill=\"none\" stroke=\"black\"/>\n", p->left,
        p->top, p->right - p->left, p->bottom - p->top);
    for (double x = ceil(p->x0 / step) * step; x <= p->x1 + step / 1e6; x += step) {
        add_line(to, across(p, x), p->bottom, across(p, x), p->bottom + 7, "stroke=\"black\"");
        add(to, "<text x=\"%.1f\" y=\"%.1f\" text-anchor=\"middle\">%g</text>\n", across(p, x), p->bottom + 30,
            fabs(x) < step / 2 ? 0 : x);
    }
    for (double y = ceil(p->y0 / rise) * rise; y <= p->y1 + rise / 1e6; y += rise) {
        add_line(to, p->left - 7, down(p, y), p->left, down(p, y), "stroke=\"black\"");
        add(to, "<text x=\"%.1f\" y=\"%.1f\" text-anchor=\"end\">%g</text>\n", p->left - 11, down(p, y) + 8,
            fabs(y) < rise / 2 ? 0 : y);
    }
    add(to, "<text x=\"%.1f\" y=\"%.1f\" text-anchor=\"middle\">%s</text>\n", (p->left + p->right) / 2, p->bottom + 62,
        below);
    add(to, "<text x=\"%.1f\" y=\"%.1f\">%s</text>\n", p->left - 70, p->top - 16, beside);
}

/* The runs in each column of the distance, as percent of all. */
static void count_columns(const tally *kept, double end, double columns[COLUMNS]) {
    const histogram *h = &kept->of[DISTANCE];
    for (int j = 0; j < COLUMNS; j++) columns[j] = 0;
    for (size_t j = 0; j < h->size; j++) {
        double middle = fmax(0, ((double)h->bars[j].at - 0.5) * (double)kept->width);
        if (middle < end)
            columns[(int)(middle / end * COLUMNS)] += 100.0 * (double)h->bars[j].count / (double)kept->runs;
    }
}

/* The name of a distance of the histogram, readable on any ground. */
static void add_name(growing *to, const panel *p, double at, int row, const char *name, const char *colour) {
    add(to,
        "<text x=\"%.1f\" y=\"%.1f\" fill=\"%s\" stroke=\"white\" stroke-width=\"6\" "
        "paint-order=\"stroke\">%s</text>\n",
        across(p, at) + 6, p->top + 26.0 + 26 * row, colour, name);
}

/* The quantiles and the miss; one that is far off is named at the right edge. */
static void add_marks(const tally *kept, const panel *p, double miss, bool far_off, growing *to) {
    static const struct {
        unsigned thousandths;
        const char *name;
    } MARKS[] = {{500, "50 %"}, {950, "95 %"}, {999, "99.9 %"}};
    for (size_t j = 0; j < 3; j++) {
        double x = across(p, (double)within_of(kept, DISTANCE, MARKS[j].thousandths));
        add_line(to, x, p->top, x, p->bottom, "stroke=\"black\" stroke-width=\"1.5\" stroke-dasharray=\"6 5\"");
    }
    if (!far_off)
        add_line(to, across(p, miss), p->top, across(p, miss), p->bottom, "stroke=\"#c03020\" stroke-width=\"4\"");
    for (size_t j = 0; j < 3; j++)
        add_name(to, p, (double)within_of(kept, DISTANCE, MARKS[j].thousandths), (int)j, MARKS[j].name, "black");
    if (!far_off) add_name(to, p, miss, 3, "the miss", "#c03020");
    else
        add(to, "<text x=\"%.1f\" y=\"%.1f\" text-anchor=\"end\" fill=\"#c03020\">the miss: %.0f mm &#8594;</text>\n",
            p->right - 8, p->top + 130, miss);
}

static void draw_histogram(const task *t, const tally *kept, growing *to) {
    double columns[COLUMNS], top = 1e-9, miss = hypot(t->miss.east, t->miss.north),
                             end = fmax(1, 1.3 * (double)within_of(kept, DISTANCE, 999));
    bool far_off = miss > 2 * end;
    if (!far_off) end = fmax(end, 1.25 * miss);
    count_columns(kept, end, columns);
    for (int j = 0; j < COLUMNS; j++) top = fmax(top, columns[j]);
    panel p = {90, 580, 60, 430, 0, end, 0, 1.1 * top};
    for (int j = 0; j < COLUMNS; j++) {
        double left = across(&p, end * j / COLUMNS), right = across(&p, end * (j + 1) / COLUMNS),
               upper = down(&p, columns[j]);
        add(to, "<rect x=\"%.1f\" y=\"%.1f\" width=\"%.1f\" height=\"%.1f\" fill=\"#9db8d2\"/>\n", left, upper,
            right - left - 0.5, p.bottom - upper);
    }
    add_marks(kept, &p, miss, far_off, to);
    add_axes(to, &p, "distance of the noise, mm", "percent of the runs");
}

/* Where the runs are known one by one, some of them, evenly chosen. */
static void add_points(const task *t, const panel *p, growing *to) {
    uint64_t every = t->runs / MOST_POINTS + 1;
    add(to, "<g fill=\"#33557a\" fill-opacity=\"0.5\">\n");
    for (uint64_t run = 0; t->misses != NULL && run < t->runs; run += every) {
        vector noise = noise_of(t, run);
        if (fabs(noise.east) < p->x1 && fabs(noise.north) < p->y1)
            add(to, "<circle cx=\"%.1f\" cy=\"%.1f\" r=\"2.2\"/>\n", across(p, noise.east), down(p, noise.north));
    }
    add(to, "</g>\n");
}

static void add_ellipses(const ellipse *e, const panel *p, growing *to) {
    static const double OUTSIDE[] = {0.5, 0.05, 0.001};
    double scale = (p->right - p->left) / (p->x1 - p->x0);
    for (size_t j = 0; j < sizeof OUTSIDE / sizeof OUTSIDE[0]; j++) {
        double size = sqrt(-2 * log(OUTSIDE[j])) * scale;
        add(to,
            "<ellipse rx=\"%.1f\" ry=\"%.1f\" transform=\"translate(%.1f %.1f) rotate(%.2f)\" fill=\"none\" "
            "stroke=\"black\" stroke-width=\"2\"/>\n",
            size * sqrt(e->longer), size * sqrt(e->shorter), across(p, e->centre.east), down(p, e->centre.north),
            -atan2(e->sine, e->cosine) * 57.29577951308232);
    }
}

static void draw_cloud(const task *t, const tally *kept, growing *to) {
    ellipse e = ellipse_of_runs(kept);
    double miss = fmax(fabs(t->miss.east), fabs(t->miss.north)), end = fmax(1, 4.2 * sqrt(e.longer));
    bool far_off = miss > 2 * end;
    if (!far_off) end = fmax(end, 1.15 * miss);
    panel p = {720, 1090, 60, 430, -end, end, -end, end};
    add_points(t, &p, to);
    add_ellipses(&e, &p, to);
    double x = across(&p, t->miss.east), y = down(&p, t->miss.north);
    if (far_off) {
        double size = hypot(t->miss.east, t->miss.north), east = t->miss.east / size, north = t->miss.north / size;
        add_line(to, across(&p, end * east * 0.6), down(&p, end * north * 0.6), across(&p, end * east * 0.95),
                 down(&p, end * north * 0.95), "stroke=\"#c03020\" stroke-width=\"5\"");
    } else {
        add_line(to, x - 11, y - 11, x + 11, y + 11, "stroke=\"#c03020\" stroke-width=\"5\"");
        add_line(to, x - 11, y + 11, x + 11, y - 11, "stroke=\"#c03020\" stroke-width=\"5\"");
    }
    add_axes(to, &p, "east, mm; ellipses of 50, 95 and 99.9 %", "north, mm");
}

void draw(const task *t, const tally *kept, growing *to) {
    add(to, "<svg xmlns=\"http://www.w3.org/2000/svg\" viewBox=\"0 0 1200 520\" font-family=\"sans-serif\" "
            "font-size=\"24\">\n<rect width=\"1200\" height=\"520\" fill=\"white\"/>\n");
    draw_histogram(t, kept, to);
    draw_cloud(t, kept, to);
    add(to, "</svg>\n");
}
