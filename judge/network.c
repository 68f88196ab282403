/* The network of a cave: its edges, and the passages and loops that they make. */
#include "inside.h"
#include <stdlib.h>
#include <string.h>

/* A random circulation through the network tells passages: what flows in flows out at every node, so that edges which
 * no loop tells apart carry the same flow, and edges in no loop none. */
struct flows {
    size_t nodes;
    size_t *start, *touching; /* the edges at each node: touching[start[node]] and on */
    size_t *order, *parent;   /* nodes in the order of a breadth-first search, and the edge that led there */
    uint64_t *flow, *excess;
};

/* Distinct numbers that look random (the finalizer of splitmix64). */
static uint64_t scattered(uint64_t n) {
    n = (n + 0x6a09e667f3bcc909) * 0x9e3779b97f4a7c15;
    n = (n ^ n >> 30) * 0xbf58476d1ce4e5b9;
    n = (n ^ n >> 27) * 0x94d049bb133111eb;
    return n ^ n >> 31;
}

static size_t root_of(size_t *parents, size_t node) {
    while (parents[node] != node) node = parents[node] = parents[parents[node]];
    return node;
}

static bool joined(size_t *parents, size_t one, size_t other) {
    size_t a = root_of(parents, one), b = root_of(parents, other);
    parents[a] = b;
    return a != b;
}

static void add_edge(struct judge_cave *cave, enum judge_kind kind, size_t index, size_t from, size_t to) {
    cave->edges[cave->edge_count++] =
        (struct judge_edge){.kind = kind, .index = index, .from = from, .to = to, .passage = JUDGE_NONE, .sign = 1};
}

/* Legs, equates that join what no earlier one does, and fixed points. */
static bool collect_edges(struct judge_cave *cave) {
    const struct survey *s = cave->survey;
    size_t *parents = malloc((s->station_count + 1) * sizeof *parents);
    cave->edges = malloc((s->leg_count + s->equate_count + s->fix_count + 1) * sizeof *cave->edges);
    if (parents == NULL || cave->edges == NULL) return free(parents), false;
    for (size_t j = 0; j < s->station_count; j++) parents[j] = j;
    for (size_t j = 0; j < s->leg_count; j++) {
        if (s->legs[j].from != s->legs[j].to) add_edge(cave, JUDGE_LEG, j, s->legs[j].from, s->legs[j].to);
    }
    for (size_t j = 0; j < s->equate_count; j++) {
        const struct survey_equate *e = &s->equates[j];
        if (joined(parents, e->one, e->other)) add_edge(cave, JUDGE_EQUATE, j, e->one, e->other);
    }
    for (size_t j = 0; j < s->fix_count; j++) add_edge(cave, JUDGE_FIX, j, s->station_count, s->fixes[j].station);
    free(parents);
    return true;
}

/* Lists the edges at each node. */
static void list_edges(const struct judge_cave *cave, struct flows *f) {
    for (size_t e = 0; e < cave->edge_count; e++) {
        f->start[cave->edges[e].from + 1]++;
        f->start[cave->edges[e].to + 1]++;
    }
    for (size_t node = 0; node < f->nodes; node++) f->start[node + 1] += f->start[node];
    for (size_t e = cave->edge_count; e-- > 0;) {
        f->touching[--f->start[cave->edges[e].from + 1]] = e;
        f->touching[--f->start[cave->edges[e].to + 1]] = e;
    }
    for (size_t node = 0; node < f->nodes; node++) f->start[node] = f->start[node + 1];
    f->start[f->nodes] = 2 * cave->edge_count;
}

/* A breadth-first search from every node that none before has reached. */
static void search(const struct judge_cave *cave, struct flows *f, bool *reached) {
    size_t done = 0, found = 0;
    for (size_t first = 0; first < f->nodes; first++) {
        if (reached[first]) continue;
        reached[first] = true;
        f->parent[first] = JUDGE_NONE;
        f->order[found++] = first;
        for (; done < found; done++) {
            size_t node = f->order[done];
            for (size_t j = f->start[node]; j < f->start[node + 1]; j++) {
                const struct judge_edge *e = &cave->edges[f->touching[j]];
                size_t next = e->from == node ? e->to : e->from;
                if (reached[next]) continue;
                reached[next] = true;
                f->parent[next] = f->touching[j];
                f->order[found++] = next;
            }
        }
    }
}

/* Random flows through the edges beside the tree of the search; each edge of the tree carries the rest of its lower
 * node. */
static void let_flow(const struct judge_cave *cave, struct flows *f) {
    for (size_t e = 0; e < cave->edge_count; e++) {
        const struct judge_edge *edge = &cave->edges[e];
        if (f->parent[edge->from] == e || f->parent[edge->to] == e) continue;
        f->flow[e] = scattered(e);
        f->excess[edge->to] += f->flow[e];
        f->excess[edge->from] -= f->flow[e];
    }
    for (size_t j = f->nodes; j-- > 0;) {
        size_t node = f->order[j], e = f->parent[node];
        if (e == JUDGE_NONE) continue;
        bool out = cave->edges[e].from == node;
        f->flow[e] = out ? f->excess[node] : 0 - f->excess[node];
        f->excess[out ? cave->edges[e].to : cave->edges[e].from] += f->excess[node];
    }
}

struct keyed {
    uint64_t key;
    size_t edge;
};

static int by_key(const void *a, const void *b) {
    const struct keyed *one = a, *other = b;
    if (one->key != other->key) return one->key < other->key ? -1 : 1;
    return (one->edge > other->edge) - (one->edge < other->edge);
}

static int by_edge(const void *a, const void *b) {
    const struct judge_passage *one = a, *other = b;
    return (one->first > other->first) - (one->first < other->first);
}

/* Passages in the order of their first edges; an edge runs along its passage where its flow is the lesser of a number
 * and its opposite. */
static void name_passages(struct judge_cave *cave, const uint64_t *flow, struct keyed *keys, size_t count) {
    for (size_t j = 0; j < count; j++) {
        if (j == 0 || keys[j].key != keys[j - 1].key) cave->passages[cave->passage_count++].first = keys[j].edge;
        struct judge_passage *p = &cave->passages[cave->passage_count - 1];
        struct judge_edge *edge = &cave->edges[keys[j].edge];
        edge->passage = p->first;
        edge->sign = flow[keys[j].edge] == keys[j].key ? 1 : -1;
        p->edges++;
        p->legs += edge->kind == JUDGE_LEG;
    }
    qsort(cave->passages, cave->passage_count, sizeof cave->passages[0], by_edge);
}

static bool find_passages(struct judge_cave *cave, const uint64_t *flow) {
    size_t count = 0, *place = malloc((cave->edge_count + 1) * sizeof *place);
    struct keyed *keys = malloc((cave->edge_count + 1) * sizeof *keys);
    cave->passages = calloc(cave->edge_count + 1, sizeof *cave->passages);
    bool good = keys != NULL && place != NULL && cave->passages != NULL;
    for (size_t e = 0; good && e < cave->edge_count; e++) {
        if (flow[e] != 0) keys[count++] = (struct keyed){flow[e] < 0 - flow[e] ? flow[e] : 0 - flow[e], e};
        else cave->legs_in_no_loop += cave->edges[e].kind == JUDGE_LEG;
    }
    if (good) {
        qsort(keys, count, sizeof keys[0], by_key);
        name_passages(cave, flow, keys, count);
        for (size_t j = 0; j < cave->passage_count; j++) place[cave->passages[j].first] = j;
        for (size_t j = 0; j < count; j++) cave->edges[keys[j].edge].passage = place[cave->edges[keys[j].edge].passage];
    }
    free(keys);
    free(place);
    return good;
}

static bool find_flows(struct judge_cave *cave, struct flows *f, bool *reached) {
    list_edges(cave, f);
    search(cave, f, reached);
    let_flow(cave, f);
    return find_passages(cave, f->flow);
}

static bool flow_through(struct judge_cave *cave) {
    struct flows f = {.nodes = cave->survey->station_count + 1};
    size_t nodes = f.nodes + 1, edges = cave->edge_count + 1;
    bool *reached = calloc(nodes, sizeof *reached);
    f.start = calloc(nodes + 1, sizeof *f.start);
    f.touching = malloc(2 * edges * sizeof *f.touching);
    f.order = malloc(nodes * sizeof *f.order);
    f.parent = malloc(nodes * sizeof *f.parent);
    f.flow = calloc(edges, sizeof *f.flow);
    f.excess = calloc(nodes, sizeof *f.excess);
    bool good = reached != NULL && f.start != NULL && f.touching != NULL && f.order != NULL && f.parent != NULL;
    good = good && f.flow != NULL && f.excess != NULL && find_flows(cave, &f, reached);
    free(reached);
    free(f.start);
    free(f.touching);
    free(f.order);
    free(f.parent);
    free(f.flow);
    free(f.excess);
    return good;
}

/* The graph whose edges are the passages: all edges of the cave but the first of each passage are shrunk to nothing. */
static size_t shrink(const struct judge_cave *cave, size_t *parents, size_t (*ends)[2], size_t *weights) {
    size_t nodes = cave->survey->station_count + 1, count = 0;
    for (size_t j = 0; j < nodes; j++) parents[j] = j;
    for (size_t e = 0; e < cave->edge_count; e++) {
        size_t p = cave->edges[e].passage;
        if (p == JUDGE_NONE || cave->passages[p].first != e) joined(parents, cave->edges[e].from, cave->edges[e].to);
    }
    for (size_t p = 0; p < cave->passage_count; p++) {
        const struct judge_edge *e = &cave->edges[cave->passages[p].first];
        ends[p][e->sign < 0] = root_of(parents, e->from);
        ends[p][e->sign > 0] = root_of(parents, e->to);
        weights[p] = cave->passages[p].legs;
    }
    size_t *numbers = parents; /* roots are numbered in the order of passages; what is no root is not asked for again */
    for (size_t p = 0; p < 2 * cave->passage_count; p++) {
        size_t *end = &ends[p / 2][p % 2], root = *end;
        if (numbers[root] < nodes) numbers[root] = nodes + count++;
        *end = numbers[root] - nodes;
    }
    return count;
}

/* The loops of each passage, from the passages of each loop. */
static bool turn_round(struct judge_cave *cave) {
    size_t all = 0;
    for (size_t r = 0; r < cave->loop_count; r++) all += cave->loops[r].passages;
    cave->passage_loops = malloc((all + 1) * sizeof *cave->passage_loops);
    if (cave->passage_loops == NULL) return false;
    for (size_t j = 0; j < all; j++) cave->passages[cave->loop_passages[j].of].loops++;
    for (size_t p = 1; p < cave->passage_count; p++)
        cave->passages[p].at = cave->passages[p - 1].at + cave->passages[p - 1].loops;
    for (size_t p = 0; p < cave->passage_count; p++) cave->passages[p].loops = 0;
    for (size_t r = 0; r < cave->loop_count; r++) {
        for (size_t j = 0; j < cave->loops[r].passages; j++) {
            struct judge_part part = cave->loop_passages[cave->loops[r].at + j];
            struct judge_passage *p = &cave->passages[part.of];
            cave->passage_loops[p->at + p->loops++] = (struct judge_part){r, part.sign};
            cave->loops[r].legs += p->legs;
        }
    }
    return true;
}

/* Passages less nodes and pieces: each piece has one edge less in its tree than nodes. */
static size_t count_loops(const struct judge_graph *g, size_t *parents) {
    size_t loops = 0;
    for (size_t j = 0; j < g->nodes; j++) parents[j] = j;
    for (size_t e = 0; e < g->edges; e++) loops += !joined(parents, g->ends[e][0], g->ends[e][1]);
    return loops;
}

static bool find_loops(struct judge_cave *cave) {
    size_t *parents = malloc((cave->survey->station_count + 2) * sizeof *parents);
    size_t *weights = malloc((cave->passage_count + 1) * sizeof *weights),
           (*ends)[2] = malloc((cave->passage_count + 1) * sizeof *ends);
    bool good = parents != NULL && weights != NULL && ends != NULL;
    if (good) {
        struct judge_graph g = {shrink(cave, parents, ends, weights), cave->passage_count, (const size_t(*)[2])ends,
                                weights};
        cave->loop_count = count_loops(&g, parents);
        cave->loops = calloc(cave->loop_count + 1, sizeof *cave->loops);
        good = cave->loops != NULL && judge_cycles(&g, cave->loop_count, cave->loops, &cave->loop_passages);
    }
    free(parents);
    free(weights);
    free(ends);
    return good && turn_round(cave);
}

bool judge_network(struct judge_cave *cave) { return collect_edges(cave) && flow_through(cave) && find_loops(cave); }
