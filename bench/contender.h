/* What a library offers to the driver (bench.c). One file per library fills this table in. */
#ifndef CONTENDER_H
#define CONTENDER_H

#include <stddef.h>
#include <stdint.h>

enum question {
    DIJKSTRA,
    A_STAR,
    F64,
    F64_CUTOFF,
    BELLMAN_FORD,
    FLOYD_WARSHALL,
    JOHNSON,
    HOPS,
    PAGE,
    PUT_AGAIN,
    PUT_NEW,
    QUESTIONS
};

/* How a call of a library ended. LACKED: the library has no such question. */
enum outcome { LACKED, ANSWERED, REFUSED };

/* No distance, no cost, no matrix entry; no f64 distance; no predecessor. */
#define NONE INT64_MIN
#define NONE_REAL (-1.0)
#define NONE_NODE UINT32_MAX

/* A map without doubled links and self-links; every index is present. */
struct map {
    size_t bound, count;
    int directed;
    const uint16_t *from, *to;
    const int32_t *costs;
    const double *lengths; /* costs of the f64 search */
};

/* What is asked. `link` is the record that a put sends, by its place in the map. */
struct query {
    enum question question;
    size_t source, target, link;
    const int64_t *guess; /* A*: the heuristic, one entry per index */
    double cutoff;
    const int64_t *page; /* page check: the distances to judge */
};

/* An answer in the driver's form. `whole` has room for a matrix, the others for one entry per index. */
struct answer {
    int64_t cost;    /* A*: the cost; page check and put: 1 if as it should be */
    int64_t *whole;  /* distances, or a matrix row by row */
    double *real;    /* f64 distances */
    uint32_t *nodes; /* f64: predecessors; A*: the path */
    size_t length;   /* A*: nodes on the path; f64: 0 if the library gave no predecessors */
};

struct contender {
    /* The library's own structure for a map, with memory for answers where its users keep it. Not timed. */
    void *(*build)(const struct map *map);
    /* Timed: answers, and keeps the answer in the library's own form. */
    enum outcome (*ask)(void *graph, const struct query *query);
    /* Not timed: puts the last answer into the driver's form and frees it. */
    void (*tell)(void *graph, const struct query *query, struct answer *answer);
    /* Not timed. */
    void (*drop)(void *graph);
};

#endif
