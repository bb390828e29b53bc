/* Ours: the proved archive, through its C interface. Each call checks the table, builds its neighbour
   list and clears its scratch. */
#include "contender.h"
#include "dimetumble.h"
#include <stdlib.h>
#include <string.h>

#define M DIMETUMBLE_INDICES
#define N DIMETUMBLE_LINKS
#define SLICE(s) (s), sizeof(s) / sizeof *(s)

/* The lent table, the outputs and the scratch. */
struct ours {
    size_t bound, count;
    uint8_t directed, yes;
    uint8_t marks[M], opens[N];
    uint16_t from[N], to[N];
    int32_t costs[N];
    uint64_t bits[N];
    const struct map *map;
    uint16_t put_from[N], put_to[N]; /* the table that records are put into: the same links, at no cost */
    int32_t put_costs[N];
    int64_t cost, dist[M], matrix[M * M];
    double real[M];
    uint32_t preds[M], path[M], nodes[M], hops[M * M];
    size_t length, listed;
    size_t offsets[M + 1], peaks[M], words[M], queue[M + 1], queued[M], lengths[M], labels[M], ranks[M];
    uint16_t heads[2 * N];
    int64_t weights[2 * N], keys[M], spare[M], heights[M];
    uint64_t patterns[2 * N];
    uint64_t real_keys[M];
};

/* Arguments that stand together: the table of links, an integer map, the neighbour list, the bag. */
#define TABLE o->bound, o->count, o->directed, SLICE(o->marks), SLICE(o->from), SLICE(o->to)
#define MAP TABLE, SLICE(o->costs)
#define LIST SLICE(o->offsets), SLICE(o->heads), SLICE(o->weights)
#define BAG SLICE(o->peaks), SLICE(o->words), SLICE(o->keys)

/* A table of the map's links, every index present, every link open. */
static void *build(const struct map *map) {
    struct ours *o = calloc(1, sizeof *o);
    o->bound = map->bound;
    o->count = map->count;
    o->directed = map->directed;
    o->map = map;
    memset(o->marks, 1, map->bound);
    memset(o->opens, 1, map->count);
    memcpy(o->from, map->from, map->count * sizeof *o->from);
    memcpy(o->to, map->to, map->count * sizeof *o->to);
    memcpy(o->costs, map->costs, map->count * sizeof *o->costs);
    memcpy(o->bits, map->lengths, map->count * sizeof *o->bits);
    memcpy(o->put_from, map->from, map->count * sizeof *o->from);
    memcpy(o->put_to, map->to, map->count * sizeof *o->to);
    return o;
}

/* The f64 search, with the cutoff if capped. */
static size_t f64_search(struct ours *o, const struct query *query, uint8_t capped) {
    return dimetumble_dijkstra_path_f64(TABLE, SLICE(o->bits), SLICE(o->opens), query->source, capped, query->cutoff, SLICE(o->real),
                                        SLICE(o->preds), SLICE(o->offsets), SLICE(o->heads), SLICE(o->patterns), SLICE(o->peaks),
                                        SLICE(o->words), SLICE(o->real_keys));
}

/* The record to put: a link of the table, sent again; or the last link, put into the table without it. */
static size_t record(const struct ours *o, const struct query *query) {
    return query->question == PUT_NEW ? o->count - 1 : query->link;
}

/* Puts the record into the table of puts. */
static size_t put(struct ours *o, const struct query *query) {
    size_t i = record(o, query);
    o->length = query->question == PUT_NEW ? o->count - 1 : o->count;
    return dimetumble_put(o->bound, &o->length, o->directed, SLICE(o->marks), SLICE(o->put_from), SLICE(o->put_to), SLICE(o->put_costs),
                          o->map->from[i], o->map->to[i], o->map->costs[i]);
}

/* Was the record put where it belongs? Takes it out again. */
static int take_back(struct ours *o, const struct query *query) {
    size_t i = record(o, query);
    const struct map *map = o->map;
    int right = o->length == o->count && o->put_from[i] == map->from[i] && o->put_to[i] == map->to[i] && o->put_costs[i] == map->costs[i];
    o->put_costs[i] = 0;
    if (query->question == PUT_NEW) o->put_from[i] = o->put_to[i] = 0;
    return right;
}

/* A number of ours as an outcome. */
static enum outcome ended(size_t number) { return number == 0 ? ANSWERED : REFUSED; }

static enum outcome ask(void *graph, const struct query *query) {
    struct ours *o = graph;
    switch (query->question) {
    case DIJKSTRA: return ended(dimetumble_dijkstra(MAP, query->source, SLICE(o->dist), LIST, SLICE(o->preds), BAG));
    case A_STAR:
        return ended(dimetumble_a_star(MAP, query->source, query->target, query->guess, o->bound, &o->cost, &o->length, SLICE(o->path), LIST,
                                 SLICE(o->spare), SLICE(o->preds), BAG));
    case F64: return ended(f64_search(o, query, 0));
    case F64_CUTOFF: return ended(f64_search(o, query, 1));
    case BELLMAN_FORD:
        return ended(dimetumble_bellman_ford(MAP, query->source, SLICE(o->dist), LIST, SLICE(o->queue), SLICE(o->queued), SLICE(o->lengths)));
    case FLOYD_WARSHALL: return ended(dimetumble_floyd_warshall(MAP, SLICE(o->matrix), SLICE(o->ranks)));
    case JOHNSON: return ended(dimetumble_johnson(MAP, SLICE(o->matrix), LIST, SLICE(o->heights), SLICE(o->spare), SLICE(o->preds), BAG));
    case HOPS:
        return ended(dimetumble_hops(MAP, &o->listed, SLICE(o->nodes), SLICE(o->hops), SLICE(o->offsets), SLICE(o->heads), SLICE(o->labels),
                               SLICE(o->queue)));
    case PAGE: return ended(dimetumble_page(MAP, query->source, query->page, o->bound, &o->yes));
    case PUT_AGAIN:
    case PUT_NEW: return ended(put(o, query));
    default: return LACKED;
    }
}

static void tell(void *graph, const struct query *query, struct answer *answer) {
    struct ours *o = graph;
    size_t m = o->bound;
    switch (query->question) {
    case DIJKSTRA:
    case BELLMAN_FORD: memcpy(answer->whole, o->dist, m * sizeof *o->dist); break;
    case A_STAR:
        answer->cost = o->cost;
        answer->length = o->length;
        memcpy(answer->nodes, o->path, o->length * sizeof *o->path);
        break;
    case F64:
    case F64_CUTOFF:
        answer->length = 1;
        memcpy(answer->real, o->real, m * sizeof *o->real);
        memcpy(answer->nodes, o->preds, m * sizeof *o->preds);
        break;
    case FLOYD_WARSHALL:
    case JOHNSON: memcpy(answer->whole, o->matrix, m * m * sizeof *o->matrix); break;
    case HOPS:
        for (size_t i = 0; i < m * m; i++) answer->whole[i] = o->hops[i] == NONE_NODE ? NONE : o->hops[i];
        break;
    case PAGE: answer->cost = o->yes; break;
    default: answer->cost = take_back(o, query);
    }
}

static void drop(void *graph) { free(graph); }

const struct contender dimetumble_contender = {build, ask, tell, drop};
