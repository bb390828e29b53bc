/* igraph: igraph_t with a weight vector. It has no A*, and its distances come without predecessors. */
#include "contender.h"
#include <igraph/igraph.h>
#include <stdlib.h>

/* The graph, its weights, and the matrix that distances go to. */
struct igraph {
    igraph_t graph;
    igraph_vector_t costs, lengths;
    igraph_matrix_t answer;
};

static void *build(const struct map *map) {
    struct igraph *g = malloc(sizeof *g);
    igraph_vector_int_t ends;
    igraph_vector_int_init(&ends, 2 * map->count);
    igraph_vector_init(&g->costs, map->count);
    igraph_vector_init(&g->lengths, map->count);
    igraph_matrix_init(&g->answer, 0, 0);
    for (size_t i = 0; i < map->count; i++) {
        VECTOR(ends)[2 * i] = map->from[i];
        VECTOR(ends)[2 * i + 1] = map->to[i];
        VECTOR(g->costs)[i] = map->costs[i];
        VECTOR(g->lengths)[i] = map->lengths[i];
    }
    igraph_create(&g->graph, &ends, map->bound, map->directed);
    igraph_vector_int_destroy(&ends);
    return g;
}

/* An error code as an outcome. */
static enum outcome ended(igraph_error_t error) { return error ? REFUSED : ANSWERED; }

static enum outcome ask(void *graph, const struct query *query) {
    struct igraph *g = graph;
    igraph_vs_t from = igraph_vss_1(query->source), all = igraph_vss_all();
    switch (query->question) {
    case DIJKSTRA: return ended(igraph_distances_dijkstra(&g->graph, &g->answer, from, all, &g->costs, IGRAPH_OUT));
    case F64: return ended(igraph_distances_dijkstra(&g->graph, &g->answer, from, all, &g->lengths, IGRAPH_OUT));
    case F64_CUTOFF:
        return ended(igraph_distances_dijkstra_cutoff(&g->graph, &g->answer, from, all, &g->lengths, IGRAPH_OUT, query->cutoff));
    case BELLMAN_FORD: return ended(igraph_distances_bellman_ford(&g->graph, &g->answer, from, all, &g->costs, IGRAPH_OUT));
    case FLOYD_WARSHALL: return ended(igraph_distances_floyd_warshall(&g->graph, &g->answer, &g->costs, IGRAPH_OUT));
    case JOHNSON: return ended(igraph_distances_johnson(&g->graph, &g->answer, all, all, &g->costs));
    case HOPS: return ended(igraph_distances(&g->graph, &g->answer, all, all, IGRAPH_OUT));
    default: return LACKED;
    }
}

static void tell(void *graph, const struct query *query, struct answer *answer) {
    struct igraph *g = graph;
    size_t rows = igraph_matrix_nrow(&g->answer), columns = igraph_matrix_ncol(&g->answer);
    answer->length = 0;
    for (size_t i = 0; i < rows; i++)
        for (size_t j = 0; j < columns; j++) {
            double x = MATRIX(g->answer, i, j);
            if (query->question == F64 || query->question == F64_CUTOFF)
                answer->real[j] = x == IGRAPH_INFINITY ? NONE_REAL : x;
            else
                answer->whole[i * columns + j] = x == IGRAPH_INFINITY ? NONE : (int64_t)x;
        }
}

static void drop(void *graph) {
    struct igraph *g = graph;
    igraph_destroy(&g->graph);
    igraph_vector_destroy(&g->costs);
    igraph_vector_destroy(&g->lengths);
    igraph_matrix_destroy(&g->answer);
    free(g);
}

const struct contender igraph_contender = {build, ask, tell, drop};
