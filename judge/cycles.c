/* A minimum cycle basis, by Horton: among the cycles of a shortest path, an edge and a shortest path back, the shortest
 * that are independent. */
#include "inside.h"
#include <stdlib.h>
#include <string.h>

/* A cycle: from a root by shortest paths to both ends of an edge. Two of the same weight and mark are one. */
struct cycle {
    uint64_t weight, mark;
    size_t root, edge;
};

/* What a search from one root finds of each node: how far, by which edge, behind which node next to the root, and the
 * mark of the way. */
struct way {
    uint64_t distance, mark;
    size_t edge, branch;
};
#define NOWHERE UINT64_MAX

struct search {
    const struct judge_graph *g;
    size_t *start, *touching;   /* the edges at each node */
    struct way *ways;           /* of one root */
    size_t *heap, *place, held; /* nodes to be visited, the nearest first, and where each stands */
    struct cycle *cycles;
    size_t count, room;
    size_t *by; /* for each root and node the edge that leads there */
};

static uint64_t mark_of(size_t edge) {
    uint64_t n = (edge + 1) * 0x9e3779b97f4a7c15;
    n = (n ^ n >> 32) * 0xd6e8feb86659fd93;
    n = (n ^ n >> 32) * 0xd6e8feb86659fd93;
    return n ^ n >> 32;
}

/* Legs, and a fraction of a leg that makes every shortest way the only one. */
static uint64_t weight_of(const struct judge_graph *g, size_t edge) {
    return ((uint64_t)g->weights[edge] << 32) + (mark_of(edge) >> 44);
}

static size_t other_end(const struct judge_graph *g, size_t edge, size_t node) {
    return g->ends[edge][0] == node ? g->ends[edge][1] : g->ends[edge][0];
}

static bool nearer(const struct search *s, size_t a, size_t b) {
    size_t one = s->heap[a], other = s->heap[b];
    if (s->ways[one].distance != s->ways[other].distance) return s->ways[one].distance < s->ways[other].distance;
    return one < other;
}

static void swap(struct search *s, size_t a, size_t b) {
    size_t node = s->heap[a];
    s->heap[a] = s->heap[b];
    s->heap[b] = node;
    s->place[s->heap[a]] = a;
    s->place[s->heap[b]] = b;
}

static void rise(struct search *s, size_t at) {
    for (; at > 0 && nearer(s, at, (at - 1) / 2); at = (at - 1) / 2) swap(s, at, (at - 1) / 2);
}

static size_t take_nearest(struct search *s) {
    size_t node = s->heap[0], at = 0;
    swap(s, 0, --s->held);
    for (;;) {
        size_t least = at;
        for (size_t below = 2 * at + 1; below <= 2 * at + 2 && below < s->held; below++) {
            if (nearer(s, below, least)) least = below;
        }
        if (least == at) return node;
        swap(s, at, least);
        at = least;
    }
}

/* A way to a node by an edge, where it is shorter than what is known. */
static void offer(struct search *s, size_t node, size_t edge, const struct way *from, size_t branch) {
    uint64_t distance = from->distance + weight_of(s->g, edge);
    struct way *to = &s->ways[node];
    if (distance >= to->distance) return;
    if (to->distance == NOWHERE) {
        s->place[node] = s->held;
        s->heap[s->held++] = node;
    }
    *to = (struct way){distance, from->mark ^ mark_of(edge), edge, branch};
    rise(s, s->place[node]);
}

/* Dijkstra's search. */
static void find_ways(struct search *s, size_t root) {
    for (size_t j = 0; j < s->g->nodes; j++) s->ways[j] = (struct way){NOWHERE, 0, JUDGE_NONE, JUDGE_NONE};
    s->ways[root].distance = 0;
    s->heap[0] = root;
    s->place[root] = 0;
    s->held = 1;
    while (s->held > 0) {
        size_t node = take_nearest(s);
        struct way from = s->ways[node];
        s->by[root * s->g->nodes + node] = from.edge;
        for (size_t j = s->start[node]; j < s->start[node + 1]; j++) {
            size_t next = other_end(s->g, s->touching[j], node);
            if (next != root && next != node) offer(s, next, s->touching[j], &from, node == root ? next : from.branch);
        }
    }
}

/* Cycles through the root: an edge beside the ways, whose ends lie behind different neighbours of the root. */
static bool note_cycles(struct search *s, size_t root) {
    for (size_t e = 0; e < s->g->edges; e++) {
        size_t from = s->g->ends[e][0], to = s->g->ends[e][1];
        const struct way *a = &s->ways[from], *b = &s->ways[to];
        bool beside = a->distance != NOWHERE && a->edge != e && b->edge != e;
        bool around = from == to ? from == root : a->branch != b->branch;
        if (!beside || !around) continue;
        if (!room_for(1, &s->cycles, s->count, &s->room, sizeof s->cycles[0])) return false;
        s->cycles[s->count++] =
            (struct cycle){a->distance + b->distance + weight_of(s->g, e), a->mark ^ b->mark ^ mark_of(e), root, e};
    }
    return true;
}

static int by_weight(const void *a, const void *b) {
    const struct cycle *one = a, *other = b;
    if (one->weight != other->weight) return one->weight < other->weight ? -1 : 1;
    if (one->mark != other->mark) return one->mark < other->mark ? -1 : 1;
    return one->root != other->root ? (one->root > other->root) - (one->root < other->root)
                                    : (one->edge > other->edge) - (one->edge < other->edge);
}

/* The edges of a cycle with their directions, as it goes from the root to the first end of its edge, along that and
 * back. */
static size_t walk(const struct search *s, const struct cycle *c, struct judge_part *parts) {
    size_t count = 0;
    const size_t *by = s->by + c->root * s->g->nodes;
    parts[count++] = (struct judge_part){c->edge, 1};
    for (int side = 0; side < 2; side++) {
        for (size_t node = s->g->ends[c->edge][side]; node != c->root;) {
            size_t edge = by[node], before = other_end(s->g, edge, node);
            bool along = (s->g->ends[edge][1] == node) == (side == 0);
            parts[count++] = (struct judge_part){edge, along ? 1 : -1};
            node = before;
        }
    }
    return count;
}

/* Independence over the field of two elements: rows of bits, each with a pivot of its own. */
struct rows {
    size_t words, count;
    uint64_t *bits, *trial;
    size_t *pivots;
};

static bool is_new(struct rows *r, const struct judge_part *parts, size_t count) {
    memset(r->trial, 0, r->words * sizeof r->trial[0]);
    for (size_t j = 0; j < count; j++) r->trial[parts[j].of / 64] ^= (uint64_t)1 << parts[j].of % 64;
    for (size_t row = 0; row < r->count; row++) {
        if ((r->trial[r->pivots[row] / 64] >> r->pivots[row] % 64 & 1) == 0) continue;
        for (size_t w = 0; w < r->words; w++) r->trial[w] ^= r->bits[row * r->words + w];
    }
    size_t pivot = 0;
    while (pivot < 64 * r->words && (r->trial[pivot / 64] >> pivot % 64 & 1) == 0) pivot++;
    if (pivot == 64 * r->words) return false;
    memcpy(r->bits + r->count * r->words, r->trial, r->words * sizeof r->trial[0]);
    r->pivots[r->count++] = pivot;
    return true;
}

/* The shortest cycles that are independent of each other, up to so many. */
static bool choose(const struct search *s, size_t count, struct rows *r, struct judge_loop *loops,
                   struct judge_part **parts) {
    size_t used = 0, room = 0;
    for (size_t j = 0; j < s->count && r->count < count; j++) {
        const struct cycle *c = &s->cycles[j];
        if (j > 0 && c->weight == c[-1].weight && c->mark == c[-1].mark) continue;
        if (!room_for(s->g->edges, parts, used, &room, sizeof **parts)) return false;
        size_t length = walk(s, c, *parts + used), row = r->count;
        if (!is_new(r, *parts + used, length)) continue;
        loops[row].at = used;
        loops[row].passages = length;
        used += length;
    }
    return r->count == count;
}

static bool choose_cycles(const struct search *s, size_t count, struct judge_loop *loops, struct judge_part **parts) {
    struct rows r = {.words = s->g->edges / 64 + 1};
    r.bits = malloc((count + 1) * r.words * sizeof r.bits[0]);
    r.trial = malloc(r.words * sizeof r.trial[0]);
    r.pivots = malloc((count + 1) * sizeof r.pivots[0]);
    bool good = r.bits != NULL && r.trial != NULL && r.pivots != NULL && choose(s, count, &r, loops, parts);
    free(r.bits);
    free(r.trial);
    free(r.pivots);
    return good;
}

static void list_edges(struct search *s) {
    const struct judge_graph *g = s->g;
    for (size_t e = 0; e < 2 * g->edges; e++) s->start[g->ends[e / 2][e % 2] + 1]++;
    for (size_t node = 0; node < g->nodes; node++) s->start[node + 1] += s->start[node];
    for (size_t e = 2 * g->edges; e-- > 0;) s->touching[--s->start[g->ends[e / 2][e % 2] + 1]] = e / 2;
    for (size_t node = 0; node < g->nodes; node++) s->start[node] = s->start[node + 1];
    s->start[g->nodes] = 2 * g->edges;
}

static bool search_all(struct search *s, size_t count, struct judge_loop *loops, struct judge_part **parts) {
    bool good = true;
    list_edges(s);
    for (size_t root = 0; good && root < s->g->nodes; root++) {
        find_ways(s, root);
        good = note_cycles(s, root);
    }
    if (good && s->count > 0) qsort(s->cycles, s->count, sizeof s->cycles[0], by_weight);
    return good && choose_cycles(s, count, loops, parts);
}

bool judge_cycles(const struct judge_graph *g, size_t count, struct judge_loop *loops, struct judge_part **parts) {
    struct search s = {.g = g};
    s.start = calloc(g->nodes + 2, sizeof *s.start);
    s.touching = malloc((2 * g->edges + 1) * sizeof *s.touching);
    s.ways = malloc((g->nodes + 1) * sizeof *s.ways);
    s.heap = malloc((g->nodes + 1) * sizeof *s.heap);
    s.place = malloc((g->nodes + 1) * sizeof *s.place);
    s.by = malloc((g->nodes * g->nodes + 1) * sizeof *s.by);
    bool good =
        s.start != NULL && s.touching != NULL && s.ways != NULL && s.heap != NULL && s.place != NULL && s.by != NULL;
    *parts = NULL;
    good = good && search_all(&s, count, loops, parts);
    free(s.start);
    free(s.touching);
    free(s.ways);
    free(s.heap);
    free(s.place);
    free(s.by);
    free(s.cycles);
    return good;
}
