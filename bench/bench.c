/* The driver: makes the maps, asks every library in turn, checks every answer and writes the medians.
   usage: bench OUT.tsv SECONDS NAME=LIBRARY.so ..
   The first library named gives the distances from which heuristics, cutoffs and pages are made. A library
   exports NAME_contender. Exits nonzero at the first answer that differs. */
#define _POSIX_C_SOURCE 200809L
#include "contender.h"
#include <dlfcn.h>
#include <math.h>
#include <stdio.h>
#include <stdlib.h>
#include <string.h>
#include <time.h>

#define INDICES 1024
#define LINKS 8192
#define QUERIES 16   /* sources and targets cycle through these */
#define CALLS 4      /* timed calls of one library in one turn, where one call is quick */
#define LEAST 3      /* turns of each library in every case */
#define MOST 400     /* turns at most */

/* A library in the run, and its times in the case at hand. */
struct rival {
    char name[32];
    const struct contender *is;
    void *graph;
    int lacks; /* the question of this case */
    double times[MOST * CALLS];
    size_t calls;
};

struct rival rivals[16];
size_t rival_count;
double seconds; /* to spend on one case */

/* the map at hand, its kind, and what is being asked */
uint16_t from[LINKS], to[LINKS];
int32_t costs[LINKS];
double lengths[LINKS];
struct map map = {0, 0, 0, from, to, costs, lengths};
const char *kind, *asking;

/* the queries on it, with their heuristics and pages, and the greatest f64 distance of each */
struct query queries[QUERIES];
double greatest[QUERIES];
int64_t guesses[QUERIES][INDICES], pages[QUERIES][INDICES];
static const int64_t no_guess[INDICES];

/* the least cost of an arc between two indices, for judging paths and predecessors */
static int64_t arc_cost[INDICES][INDICES];
static double arc_length[INDICES][INDICES];

/* the first answer to each query, which all later ones must equal */
int known[QUERIES];
int64_t expected_cost[QUERIES], expected_whole[INDICES * INDICES];
double expected_real[QUERIES][INDICES];

/* the last answer */
int64_t given_whole[INDICES * INDICES];
double given_real[INDICES];
uint32_t given_nodes[INDICES];
struct answer given = {0, given_whole, given_real, given_nodes, 0};

/* What is measured. A* is asked with a heuristic that knows nothing (0) and with one that knows half; a
   cutoff is a part of the greatest distance: all of it, so that it cuts nothing that counts, or less. */
struct measure {
    const char *name;
    enum question question;
    int guided;
    double part;
};
static const struct measure MEASURES[] = {
    {"dijkstra", DIJKSTRA, 0, 0},
    {"a_star", A_STAR, 0, 0},
    {"a_star, guided", A_STAR, 1, 0},
    {"f64 search", F64, 0, 0},
    {"f64 search, cutoff 1", F64_CUTOFF, 0, 1},
    {"f64 search, cutoff 3/4", F64_CUTOFF, 0, 0.75},
    {"f64 search, cutoff 1/2", F64_CUTOFF, 0, 0.5},
    {"bellman_ford", BELLMAN_FORD, 0, 0},
    {"floyd_warshall", FLOYD_WARSHALL, 0, 0},
    {"johnson", JOHNSON, 0, 0},
    {"hops", HOPS, 0, 0},
    {"page check", PAGE, 0, 0},
    {"put, sent again", PUT_AGAIN, 0, 0},
    {"put, new link", PUT_NEW, 0, 0},
};

/* Ends the run. */
static void fail(const char *who, const char *what) {
    fprintf(stderr, "bench: %s: %s (%s: %s, %s, %zu indices, %zu links)\n", who, what, asking, kind,
            map.directed ? "directed" : "undirected", map.bound, map.count);
    exit(1);
}

/* Microseconds by a clock of the system. */
static double now(clockid_t clock) {
    struct timespec t;
    clock_gettime(clock, &t);
    return t.tv_sec * 1e6 + t.tv_nsec * 1e-3;
}

/* The questions whose calls are long. */
static int all_pairs(enum question question) {
    return question == FLOYD_WARSHALL || question == JOHNSON || question == HOPS;
}

/* ---- maps */

static uint64_t state;

/* A random number, the same in every run. */
static uint64_t draw(uint64_t below) {
    state ^= state << 13;
    state ^= state >> 7;
    state ^= state << 17;
    return state % below;
}

/* A link at the table's end, its costs drawn. */
static void link(size_t u, size_t v) {
    from[map.count] = u;
    to[map.count] = v;
    costs[map.count] = 1 + draw(1000);
    lengths[map.count] = (1 + draw(UINT64_C(1) << 40)) / 1e9;
    map.count++;
}

/* Random links, no pair twice. */
static void make_random(size_t links) {
    static uint8_t taken[INDICES][INDICES];
    memset(taken, 0, sizeof taken);
    size_t m = map.bound, pairs = m * (m - 1) / (map.directed ? 1 : 2);
    if (links > pairs) links = pairs;
    if (links > LINKS) links = LINKS;
    while (map.count < links) {
        size_t u = draw(m), v = draw(m);
        if (u == v || taken[u][v]) continue;
        taken[u][v] = 1;
        if (!map.directed) taken[v][u] = 1;
        link(u, v);
    }
}

/* Each index to the next. */
static void make_line(void) {
    for (size_t u = 0; u + 1 < map.bound; u++) link(u, u + 1);
}

/* A square; directed, each pair of neighbours has a link each way. */
static void make_grid(void) {
    size_t side = (size_t)sqrt((double)map.bound);
    for (size_t u = 0; u < map.bound; u++) {
        size_t next[2] = {u % side + 1 < side ? u + 1 : u, u + side < map.bound ? u + side : u};
        for (int i = 0; i < 2; i++) {
            if (next[i] == u) continue;
            link(u, next[i]);
            if (map.directed) link(next[i], u);
        }
    }
}

/* Costs with credits among them and no loop below zero: heights are added at one end and taken at the other. */
static void make_negative(void) {
    int32_t heights[INDICES];
    for (size_t u = 0; u < map.bound; u++) heights[u] = draw(1000);
    for (size_t i = 0; i < map.count; i++) costs[i] += heights[from[i]] - heights[to[i]];
}

/* Notes what each arc of the map costs. */
static void note_arcs(void) {
    for (size_t u = 0; u < map.bound; u++)
        for (size_t v = 0; v < map.bound; v++) arc_cost[u][v] = NONE, arc_length[u][v] = INFINITY;
    for (size_t i = 0; i < map.count; i++) {
        arc_cost[from[i]][to[i]] = costs[i];
        arc_length[from[i]][to[i]] = lengths[i];
        if (map.directed) continue;
        arc_cost[to[i]][from[i]] = costs[i];
        arc_length[to[i]][from[i]] = lengths[i];
    }
}

/* ---- what is asked */

/* The first library's answer to a question on a map; it stands in `given` afterwards. */
static void first_answer(const struct map *of, struct query query) {
    void *graph = rivals[0].is->build(of);
    if (rivals[0].is->ask(graph, &query) != ANSWERED) fail(rivals[0].name, "must have every question");
    rivals[0].is->tell(graph, &query, &given);
    rivals[0].is->drop(graph);
}

/* Sources and targets; as guiding heuristic half of what is left to the target, as page the right one;
   and the greatest distance, of which a cutoff is a part. */
static void make_queries(void) {
    struct map back = map;
    back.from = to;
    back.to = from;
    for (size_t q = 0; q < QUERIES; q++) {
        struct query *query = &queries[q];
        *query = (struct query){0};
        query->source = q * map.bound / QUERIES;
        query->target = (query->source + map.bound / 2 + q) % map.bound;
        query->link = q * map.count / QUERIES;
        query->page = pages[q];
        first_answer(&map, (struct query){.question = BELLMAN_FORD, .source = query->source});
        memcpy(pages[q], given_whole, map.bound * sizeof *given_whole);
        if (strcmp(kind, "negative") == 0) continue;
        first_answer(&back, (struct query){.question = DIJKSTRA, .source = query->target});
        for (size_t u = 0; u < map.bound; u++) guesses[q][u] = given_whole[u] == NONE ? 0 : given_whole[u] / 2;
        first_answer(&map, (struct query){.question = F64, .source = query->source});
        greatest[q] = 0;
        for (size_t u = 0; u < map.bound; u++) greatest[q] = fmax(greatest[q], given_real[u]);
    }
}

/* ---- checks */

/* A path from source to target whose total is the cost; none exactly with no cost. */
static void check_path(const char *who, const struct query *query) {
    int64_t total = 0;
    if (given.cost == NONE) {
        if (given.length != 0) fail(who, "a path without a cost");
        return;
    }
    if (given.length == 0 || given.length > map.bound || given_nodes[0] != query->source || given_nodes[given.length - 1] != query->target)
        fail(who, "the path has wrong ends");
    for (size_t i = 0; i + 1 < given.length; i++) {
        uint32_t u = given_nodes[i], v = given_nodes[i + 1];
        int64_t cost = u < map.bound && v < map.bound ? arc_cost[u][v] : NONE;
        if (cost == NONE) fail(who, "the path takes an arc that is not there");
        total += cost;
    }
    if (total != given.cost) fail(who, "the path has another total than its cost");
}

/* Each predecessor leads to its index at exactly the distance given. */
static void check_predecessors(const char *who, const struct query *query) {
    for (size_t v = 0; v < map.bound; v++) {
        uint32_t u = given_nodes[v];
        if ((u == NONE_NODE) != (v == query->source || given_real[v] == NONE_REAL)) fail(who, "a predecessor too many or too few");
        if (u != NONE_NODE && (u >= map.bound || given_real[u] + arc_length[u][v] != given_real[v])) fail(who, "a predecessor does not meet the distance");
    }
}

/* Holds what stands in `given` to the first answer to the same query. */
static void check(const char *who, enum question question, size_t q) {
    size_t m = map.bound;
    const struct query *query = &queries[q];
    int first = !known[q];
    known[q] = 1;
    switch (question) {
    case DIJKSTRA:
    case BELLMAN_FORD:
        if (first) memcpy(&expected_whole[q * m], given_whole, m * sizeof *given_whole);
        if (memcmp(&expected_whole[q * m], given_whole, m * sizeof *given_whole) != 0) fail(who, "another distance");
        break;
    case F64:
    case F64_CUTOFF:
        if (first) memcpy(expected_real[q], given_real, m * sizeof *given_real);
        if (memcmp(expected_real[q], given_real, m * sizeof *given_real) != 0) fail(who, "another f64 distance");
        if (given.length != 0) check_predecessors(who, query);
        break;
    case A_STAR:
        if (first) expected_cost[q] = given.cost;
        if (expected_cost[q] != given.cost) fail(who, "another cost");
        check_path(who, query);
        break;
    case FLOYD_WARSHALL:
    case JOHNSON:
    case HOPS:
        if (first) memcpy(expected_whole, given_whole, m * m * sizeof *given_whole);
        if (memcmp(expected_whole, given_whole, m * m * sizeof *given_whole) != 0) fail(who, "another matrix");
        break;
    default:
        if (given.cost != 1) fail(who, "no where yes is right");
    }
}

/* ---- measuring */

/* Fills the last answer's place with what no answer holds, so that none passes for the next. */
static void forget_answer(enum question question) {
    size_t m = map.bound;
    given.cost = -7;
    given.length = 1;
    memset(given_whole, 0x55, (all_pairs(question) ? m * m : m) * sizeof *given_whole);
    memset(given_real, 0x55, m * sizeof *given_real);
    memset(given_nodes, 0x55, m * sizeof *given_nodes);
}

/* One call: timed, told, checked. A long call is timed by the processor time of this thread (no library
   starts another), so that being set aside for other programs does not count; that clock is too slow to
   read for a short call, which the median protects. */
static double call(struct rival *rival, const struct measure *measure, size_t q) {
    clockid_t clock = all_pairs(measure->question) ? CLOCK_THREAD_CPUTIME_ID : CLOCK_MONOTONIC;
    queries[q].question = measure->question;
    queries[q].guess = measure->guided ? guesses[q] : no_guess;
    queries[q].cutoff = measure->part * greatest[q];
    double start = now(clock);
    enum outcome outcome = rival->is->ask(rival->graph, &queries[q]);
    double end = now(clock);
    if (outcome == REFUSED) fail(rival->name, "a refusal");
    if (outcome == LACKED) {
        rival->lacks = 1;
        return 0;
    }
    forget_answer(measure->question);
    rival->is->tell(rival->graph, &queries[q], &given);
    check(rival->name, measure->question, q);
    return end - start;
}

/* One turn of one library: where a call is quick, a call that only warms the caches and then several. */
static void turn(struct rival *rival, const struct measure *measure, size_t number) {
    int long_call = all_pairs(measure->question);
    size_t calls = long_call ? 1 : CALLS;
    if (!long_call) call(rival, measure, number * calls % QUERIES);
    for (size_t i = 0; i < calls && !rival->lacks; i++) {
        double time = call(rival, measure, long_call ? 0 : (number * calls + i) % QUERIES);
        if (!rival->lacks) rival->times[rival->calls++] = time;
    }
}

/* The order of times, for qsort. */
static int by_size(const void *a, const void *b) {
    double x = *(const double *)a, y = *(const double *)b;
    return (x > y) - (x < y);
}

/* The libraries take turns until the time for the case is spent; then a line with the median of each. */
static void run_case(FILE *out, const struct measure *measure, double spend) {
    asking = measure->name;
    memset(known, 0, sizeof known);
    for (size_t r = 0; r < rival_count; r++) rivals[r].calls = rivals[r].lacks = 0;
    double start = now(CLOCK_MONOTONIC);
    for (size_t t = 0; t < MOST && (t < LEAST || now(CLOCK_MONOTONIC) - start < spend * 1e6); t++)
        for (size_t i = 0; i < rival_count; i++) {
            struct rival *rival = &rivals[(i + t) % rival_count];
            if (!rival->lacks) turn(rival, measure, t);
        }
    for (size_t r = 0; r < rival_count; r++) {
        if (rivals[r].calls == 0) continue;
        qsort(rivals[r].times, rivals[r].calls, sizeof(double), by_size);
        fprintf(out, "%s\t%s\t%s\t%zu\t%zu\t%s\t%.3f\t%zu\n", measure->name, kind, map.directed ? "directed" : "undirected",
                map.bound, map.count, rivals[r].name, rivals[r].times[rivals[r].calls / 2], rivals[r].calls);
    }
}

/* Is a question asked of this map? Signed costs suit three questions; the largest floyd_warshall, seconds
   a call, is asked of the largest maps alone; a put is the same on every kind. */
static int asked(enum question question) {
    int random = strcmp(kind, "random") == 0, negative = strcmp(kind, "negative") == 0;
    if (negative) return question == BELLMAN_FORD || question == FLOYD_WARSHALL || question == JOHNSON;
    if (question == FLOYD_WARSHALL) return map.bound < INDICES || map.count == LINKS;
    if (question == PUT_AGAIN || question == PUT_NEW) return random;
    return 1;
}

/* Makes a map and asks all its questions. The largest maps, which the page shows first, get more time. */
static void run_map(FILE *out, const char *of_kind, size_t bound, size_t links, int directed) {
    state = UINT64_C(0x9e3779b97f4a7c15);
    kind = of_kind;
    map.bound = bound;
    map.directed = directed;
    map.count = 0;
    if (strcmp(kind, "line") == 0) make_line();
    else if (strcmp(kind, "grid") == 0) make_grid();
    else make_random(links);
    if (strcmp(kind, "negative") == 0) make_negative();
    asking = "making the map";
    note_arcs();
    make_queries();
    for (size_t r = 0; r < rival_count; r++) rivals[r].graph = rivals[r].is->build(&map);
    int largest = map.bound == INDICES && map.count == LINKS;
    for (size_t i = 0; i < sizeof MEASURES / sizeof *MEASURES; i++) {
        double share = !largest ? 1 : all_pairs(MEASURES[i].question) ? 16 : 4;
        if (asked(MEASURES[i].question)) run_case(out, &MEASURES[i], share * seconds);
    }
    for (size_t r = 0; r < rival_count; r++) rivals[r].is->drop(rivals[r].graph);
    fprintf(stderr, "%s, %s, %zu indices, %zu links\n", kind, directed ? "directed" : "undirected", bound, map.count);
}

/* Takes a library into the run, by an argument NAME=LIBRARY.so. */
static void load(const char *argument) {
    struct rival *rival = &rivals[rival_count++];
    char symbol[64];
    const char *equals = strchr(argument, '=');
    snprintf(rival->name, sizeof rival->name, "%.*s", (int)(equals - argument), argument);
    snprintf(symbol, sizeof symbol, "%s_contender", rival->name);
    void *library = dlopen(equals + 1, RTLD_NOW | RTLD_LOCAL);
    rival->is = library ? dlsym(library, symbol) : NULL;
    if (!rival->is) {
        fprintf(stderr, "bench: %s\n", dlerror());
        exit(2);
    }
}

int main(int count, char **arguments) {
    if (count < 4) {
        fprintf(stderr, "usage: bench OUT.tsv SECONDS NAME=LIBRARY.so ..\n");
        return 2;
    }
    seconds = atof(arguments[2]);
    for (int i = 3; i < count; i++) load(arguments[i]);
    FILE *out = fopen(arguments[1], "w");
    if (!out) {
        perror(arguments[1]);
        return 2;
    }
    for (size_t bound = 64; bound <= INDICES; bound *= 4) {
        for (int directed = 1; directed >= 0; directed--) {
            run_map(out, "random", bound, 8 * bound, directed);
            if (bound < INDICES) run_map(out, "dense", bound, LINKS, directed);
            run_map(out, "line", bound, 0, directed);
            run_map(out, "grid", bound, 0, directed);
        }
        run_map(out, "negative", bound, 8 * bound, 1);
    }
    for (size_t links = INDICES; links < LINKS; links *= 2) run_map(out, "random", INDICES, links, 1);
    return fclose(out) != 0;
}
