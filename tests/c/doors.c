/* Every C function: an answer, each number that it can give, slices of length 0 that are NULL, and what the buffers hold after.
 * Each check names its line when it fails; the last line says how many were made. The exit code is 0 when all held.
 */
#include <inttypes.h>
#include <math.h>
#include <stdio.h>
#include <string.h>

#include "dimetumble.h"

static unsigned made, failed;

/* One check. */
static void hold(int ok, const char *what, int line)
{
    made++;
    if (!ok) {
        failed++;
        printf("tests/c/doors.c:%d: %s\n", line, what);
    }
}
#define HOLDS(x) hold((x), #x, __LINE__)

/* ---- the lent map: room for every link that a map may have */
enum { MOST = DIMETUMBLE_INDICES, LINKS = DIMETUMBLE_LINKS, PAST = 3 };
static size_t bound, count;
static uint8_t directed;
static uint8_t marks[MOST + 1];
static uint16_t from[LINKS + 1], to[LINKS + 1];
static int32_t costs[LINKS + 1];
static uint64_t bits[LINKS + 1];
static uint8_t opens[LINKS + 1];
static size_t room;

/* ---- buffers: outputs and scratch, each PAST entries longer than the most that is used */
#define N_EACH (MOST + 1 + PAST)
#define N_ARCS (2 * LINKS + PAST)
static int64_t dist[N_EACH], weights[N_ARCS], heights[N_EACH], keys[N_EACH], reached[N_EACH], matrix[64 + PAST];
static double dist64[N_EACH];
static uint64_t keys64[N_EACH], weights64[N_ARCS];
static uint32_t preds[N_EACH], path[N_EACH], nodes[N_EACH], hops[64 + PAST];
static size_t offsets[N_EACH], peaks[N_EACH], words[N_EACH], queue[N_EACH], queued[N_EACH], lengths[N_EACH], ranks[N_EACH], labels[N_EACH];
static uint16_t heads[N_ARCS];

/* Every buffer, for what is said of all of them. */
static const struct {
    void *at;
    size_t size;
} buffers[] = {
    {dist, sizeof dist}, {weights, sizeof weights}, {heights, sizeof heights}, {keys, sizeof keys}, {reached, sizeof reached},
    {matrix, sizeof matrix}, {dist64, sizeof dist64}, {keys64, sizeof keys64}, {weights64, sizeof weights64}, {preds, sizeof preds},
    {path, sizeof path}, {nodes, sizeof nodes}, {hops, sizeof hops}, {offsets, sizeof offsets}, {peaks, sizeof peaks},
    {words, sizeof words}, {queue, sizeof queue}, {queued, sizeof queued}, {lengths, sizeof lengths}, {ranks, sizeof ranks},
    {labels, sizeof labels}, {heads, sizeof heads},
};
#define BUFFERS (sizeof buffers / sizeof buffers[0])

/* Bytes that no answer has. */
enum { DIRT = 0xa5 };
static void dirty(void)
{
    for (size_t i = 0; i < BUFFERS; i++)
        memset(buffers[i].at, DIRT, buffers[i].size);
}

/* Are all these bytes that one? */
static int all(const void *at, int byte, size_t size)
{
    const unsigned char *b = at;
    for (size_t i = 0; i < size; i++)
        if (b[i] != byte)
            return 0;
    return 1;
}

/* Is every buffer as dirty left it? */
static int untouched(void)
{
    for (size_t i = 0; i < BUFFERS; i++)
        if (!all(buffers[i].at, DIRT, buffers[i].size))
            return 0;
    return 1;
}

/* Is the part used of a scratch slice zero, and the rest as before? */
static int wiped(const void *at, size_t used, size_t size)
{
    return all(at, 0, used) && all((const unsigned char *)at + used, DIRT, size - used);
}
#define WIPED(slice, n) HOLDS(wiped(slice, (n) * sizeof(slice)[0], sizeof(slice)))

/* Is the rest of an output as before? */
static int kept(const void *at, size_t used, size_t size)
{
    return all((const unsigned char *)at + used, DIRT, size - used);
}
#define KEPT(slice, n) HOLDS(kept(slice, (n) * sizeof(slice)[0], sizeof(slice)))

/* Are these the first distances? */
static int distances(size_t n, const int64_t *want)
{
    return memcmp(dist, want, n * sizeof *want) == 0;
}
#define NONE DIMETUMBLE_NONE_I64
#define NIL DIMETUMBLE_NONE_U32
#define DISTANCES(...) \
    do { \
        static const int64_t want[] = {__VA_ARGS__}; \
        HOLDS(distances(sizeof want / sizeof *want, want)); \
    } while (0)
#define ENTRIES(slice, type, ...) \
    do { \
        static const type want[] = {__VA_ARGS__}; \
        HOLDS(memcmp(slice, want, sizeof want) == 0); \
    } while (0)

/* ---- the map, anew */
static void begin(size_t m, uint8_t d)
{
    bound = m;
    count = 0;
    directed = d;
    room = LINKS;
    memset(marks, 1, sizeof marks);
    dirty();
}

/* A record put into each kind of map. */
static size_t put(uint16_t a, uint16_t b, int32_t cost)
{
    return dimetumble_put(bound, &count, directed, marks, bound, from, room, to, room, costs, room, a, b, cost);
}

static size_t put64(uint16_t a, uint16_t b, double cost, uint8_t open)
{
    uint64_t pattern;
    memcpy(&pattern, &cost, sizeof pattern);
    return dimetumble_put_f64(bound, &count, directed, marks, bound, from, room, to, room, bits, room, opens, room, a, b, pattern, open);
}

/* A link that no put stored. */
static void lay(uint16_t a, uint16_t b, int32_t cost)
{
    from[count] = a;
    to[count] = b;
    costs[count] = cost;
    count++;
}

/* ---- the questions, on every buffer whole but for the one under test */
#define MAP bound, count, directed, marks, bound, from, LINKS, to, LINKS, costs, LINKS
#define MAP64 bound, count, directed, marks, bound, from, LINKS, to, LINKS, bits, LINKS, opens, LINKS
#define ROWS offsets, N_EACH, heads, N_ARCS, weights, N_ARCS
#define MEMORY preds, N_EACH, peaks, N_EACH, words, N_EACH, keys, N_EACH

static size_t ask_dijkstra(size_t source)
{
    return dimetumble_dijkstra(MAP, source, dist, N_EACH, ROWS, MEMORY);
}

static size_t ask_bellman_ford(size_t source)
{
    return dimetumble_bellman_ford(MAP, source, dist, N_EACH, ROWS, queue, N_EACH, queued, N_EACH, lengths, N_EACH);
}

static int64_t cost;
static size_t length;
static size_t ask_a_star(size_t source, size_t target, const int64_t *guess, size_t guesses)
{
    cost = 77;
    length = 77;
    return dimetumble_a_star(MAP, source, target, guess, guesses, &cost, &length, path, N_EACH, ROWS, reached, N_EACH, MEMORY);
}

static size_t ask_path(size_t source, uint8_t capped, double cutoff)
{
    return dimetumble_dijkstra_path_impl(MAP64, source, capped, cutoff, dist64, N_EACH, preds, N_EACH, offsets, N_EACH, heads, N_ARCS,
        weights64, N_ARCS, peaks, N_EACH, words, N_EACH, keys64, N_EACH);
}

static size_t ask_path_f64(size_t source, uint8_t capped, double cutoff)
{
    return dimetumble_dijkstra_path_f64(MAP64, source, capped, cutoff, dist64, N_EACH, preds, N_EACH, offsets, N_EACH, heads, N_ARCS,
        weights64, N_ARCS, peaks, N_EACH, words, N_EACH, keys64, N_EACH);
}

static size_t ask_floyd_warshall(size_t entries)
{
    return dimetumble_floyd_warshall(MAP, matrix, entries, ranks, N_EACH);
}

static size_t ask_johnson(size_t entries)
{
    return dimetumble_johnson(MAP, matrix, entries, ROWS, heights, N_EACH, reached, N_EACH, MEMORY);
}

static size_t listed;
static size_t ask_hops(size_t entries)
{
    listed = 77;
    return dimetumble_hops(MAP, &listed, nodes, N_EACH, hops, entries, offsets, N_EACH, heads, N_ARCS, labels, N_EACH, queue, N_EACH);
}

static size_t ask_hops_f64(size_t entries)
{
    listed = 77;
    return dimetumble_hops_f64(MAP64, &listed, nodes, N_EACH, hops, entries, offsets, N_EACH, heads, N_ARCS, labels, N_EACH, queue, N_EACH);
}

static uint8_t yes;
static size_t ask_page(size_t source, const int64_t *page, size_t entries)
{
    yes = 77;
    return dimetumble_page(MAP, source, page, entries, &yes);
}

/* Scratch after 0, 6 and 7. */
static void wiped_rows(void)
{
    WIPED(offsets, DIMETUMBLE_OFFSETS(bound));
    WIPED(heads, DIMETUMBLE_ARCS(count, directed));
    WIPED(weights, DIMETUMBLE_ARCS(count, directed));
}

static void wiped_bag(void)
{
    WIPED(peaks, bound);
    WIPED(words, bound);
    WIPED(keys, bound);
}

/* ---- put */
static void puts_into_integer_maps(void)
{
    /* S9: sent again, one link, and the later cost */
    begin(2, 1);
    HOLDS(put(1, 0, 7) == 0 && count == 1);
    HOLDS(put(1, 0, 4) == 0 && count == 1);
    HOLDS(from[0] == 1 && to[0] == 0 && costs[0] == 4);
    /* the other way is another link if directed, the same if not; its ends stay */
    HOLDS(put(0, 1, 9) == 0 && count == 2 && from[1] == 0 && to[1] == 1 && costs[1] == 9);
    begin(2, 0);
    HOLDS(put(1, 0, INT32_MIN) == 0 && put(0, 1, INT32_MAX) == 0 && count == 1);
    HOLDS(from[0] == 1 && to[0] == 0 && costs[0] == INT32_MAX);
    /* any byte but 0 is directed */
    begin(2, 200);
    HOLDS(put(1, 0, 1) == 0 && put(0, 1, 2) == 0 && count == 2);
    /* 2 before 8: ends at or above the bound, or absent */
    begin(2, 1);
    room = 1;
    HOLDS(put(0, 1, 5) == 0 && count == 1);
    HOLDS(put(0, 2, 5) == 2 && count == 1);
    marks[1] = 0;
    HOLDS(put(1, 0, 5) == 2 && put(0, 0, 5) == 2 && count == 1);
    marks[1] = 255;
    /* 8: no room for a new link, while a known one is still replaced */
    HOLDS(put(1, 0, 5) == 8 && count == 1 && costs[0] == 5 && from[0] == 0 && to[0] == 1);
    HOLDS(put(0, 1, 6) == 0 && count == 1 && costs[0] == 6);
    /* 1: limits, marks, room */
    HOLDS(dimetumble_put(1025, &count, 1, marks, 1025, from, room, to, room, costs, room, 0, 1, 3) == 1 && count == 1);
    HOLDS(dimetumble_put(2, &count, 1, marks, 1, from, room, to, room, costs, room, 0, 1, 3) == 1 && count == 1);
    HOLDS(dimetumble_put(2, &count, 1, marks, 2, from, 0, to, room, costs, room, 0, 1, 3) == 1 && count == 1);
    HOLDS(dimetumble_put(2, &count, 1, marks, 2, from, room, to, 0, costs, room, 0, 1, 3) == 1 && count == 1);
    HOLDS(dimetumble_put(2, &count, 1, marks, 2, from, room, to, room, costs, 0, 0, 1, 3) == 1 && count == 1);
    HOLDS(costs[0] == 6);
    /* nothing lent at all: no index is there */
    count = 0;
    HOLDS(dimetumble_put(0, &count, 1, NULL, 0, NULL, 0, NULL, 0, NULL, 0, 0, 0, 3) == 2 && count == 0);
    HOLDS(dimetumble_put(2, &count, 1, marks, 2, NULL, 0, NULL, 0, NULL, 0, 0, 1, 3) == 8 && count == 0);
    /* link 8,192 and 8,193 */
    begin(1024, 1);
    for (int i = 0; i < LINKS; i++)
        if (put((uint16_t)(i % 1024), (uint16_t)(i / 1024), i) != 0)
            break;
    HOLDS(count == LINKS && costs[LINKS - 1] == LINKS - 1);
    room = LINKS + 1;
    HOLDS(put(1023, 1023, 1) == 8 && count == LINKS);
    HOLDS(ask_dijkstra(0) == 0 && dist[0] == 0);
}

static void puts_into_f64_maps(void)
{
    begin(2, 0);
    HOLDS(put64(0, 1, 2.5, 1) == 0 && count == 1);
    HOLDS(put64(1, 0, -0.0, 0) == 0 && count == 1);
    HOLDS(from[0] == 0 && to[0] == 1 && bits[0] == UINT64_C(0x8000000000000000) && opens[0] == 0);
    /* a NaN's payload survives, and so does any open mark */
    HOLDS(dimetumble_put_f64(2, &count, 0, marks, 2, from, 2, to, 2, bits, 2, opens, 2, 0, 1, UINT64_C(0xfff8000000001234), 9) == 0);
    HOLDS(bits[0] == UINT64_C(0xfff8000000001234) && opens[0] == 9 && count == 1);
    HOLDS(put64(0, 2, 1.0, 1) == 2 && count == 1);
    room = 1;
    HOLDS(put64(0, 0, 1.0, 1) == 8 && count == 1);
    HOLDS(dimetumble_put_f64(2, &count, 0, marks, 2, from, 2, to, 2, bits, 2, opens, 0, 0, 1, 0, 1) == 1 && count == 1);
    HOLDS(dimetumble_put_f64(2, &count, 0, marks, 2, from, 2, to, 2, bits, 0, opens, 2, 0, 1, 0, 1) == 1 && count == 1);
    HOLDS(bits[0] == UINT64_C(0xfff8000000001234) && opens[0] == 9);
    count = 0;
    HOLDS(dimetumble_put_f64(0, &count, 0, NULL, 0, NULL, 0, NULL, 0, NULL, 0, NULL, 0, 0, 0, 0, 1) == 2 && count == 0);
}

/* ---- questions from a source */
static void dijkstra(void)
{
    /* two ways, the cheaper one counts; an index without a walk; an absent one */
    begin(5, 1);
    marks[3] = 0;
    put(0, 1, 4);
    put(0, 2, 1);
    put(2, 1, 2);
    HOLDS(ask_dijkstra(0) == 0);
    DISTANCES(0, 3, 1, NONE, NONE);
    KEPT(dist, 5);
    wiped_rows();
    WIPED(preds, bound);
    wiped_bag();
    /* S4: 6, blank; from 2 the arc below zero is not in reach */
    begin(3, 1);
    put(0, 1, 5);
    put(1, 2, -2);
    put(0, 2, 4);
    HOLDS(ask_dijkstra(0) == 6);
    DISTANCES(NONE, NONE, NONE);
    KEPT(dist, 3);
    wiped_rows();
    WIPED(preds, bound);
    wiped_bag();
    HOLDS(ask_dijkstra(2) == 0);
    DISTANCES(NONE, NONE, 0);
    /* S3: a loop at the source */
    begin(1, 1);
    put(0, 0, 3);
    HOLDS(ask_dijkstra(0) == 0 && dist[0] == 0);
    /* 3, 2, 1: untouched */
    begin(2, 1);
    put(0, 1, 5);
    HOLDS(ask_dijkstra(2) == 3 && ask_dijkstra(SIZE_MAX) == 3 && untouched());
    marks[0] = 0;
    HOLDS(ask_dijkstra(0) == 2 && untouched());
    marks[0] = 1;
    HOLDS(dimetumble_dijkstra(2, SIZE_MAX, 1, marks, 2, from, LINKS, to, LINKS, costs, LINKS, 0, dist, 2, ROWS, MEMORY) == 1);
    HOLDS(dimetumble_dijkstra(1025, 0, 1, marks, 1025, from, LINKS, to, LINKS, costs, LINKS, 0, dist, N_EACH, ROWS, MEMORY) == 1);
    HOLDS(dimetumble_dijkstra(MAP, 0, dist, 1, ROWS, MEMORY) == 1);
    HOLDS(dimetumble_dijkstra(MAP, 0, dist, 2, offsets, 2, heads, 1, weights, 1, MEMORY) == 1);
    HOLDS(dimetumble_dijkstra(MAP, 0, dist, 2, offsets, 3, heads, 0, weights, 1, MEMORY) == 1);
    HOLDS(dimetumble_dijkstra(MAP, 0, dist, 2, offsets, 3, heads, 1, weights, 0, MEMORY) == 1);
    HOLDS(dimetumble_dijkstra(MAP, 0, dist, 2, ROWS, preds, 1, peaks, 2, words, 2, keys, 2) == 1);
    HOLDS(dimetumble_dijkstra(MAP, 0, dist, 2, ROWS, preds, 2, peaks, 1, words, 2, keys, 2) == 1);
    HOLDS(dimetumble_dijkstra(MAP, 0, dist, 2, ROWS, preds, 2, peaks, 2, words, 1, keys, 2) == 1);
    HOLDS(dimetumble_dijkstra(MAP, 0, dist, 2, ROWS, preds, 2, peaks, 2, words, 2, keys, 1) == 1);
    HOLDS(untouched());
    /* just what is needed is enough */
    HOLDS(dimetumble_dijkstra(MAP, 0, dist, 2, offsets, 3, heads, 1, weights, 1, preds, 2, peaks, 2, words, 2, keys, 2) == 0);
    DISTANCES(0, 5);
    /* nothing lent but the one offset that is always needed */
    HOLDS(dimetumble_dijkstra(0, 0, 1, NULL, 0, NULL, 0, NULL, 0, NULL, 0, 0, NULL, 0, offsets, 1, NULL, 0, NULL, 0, NULL, 0, NULL, 0, NULL, 0, NULL, 0) == 3);
    HOLDS(dimetumble_dijkstra(0, 0, 1, NULL, 0, NULL, 0, NULL, 0, NULL, 0, 0, NULL, 0, NULL, 0, NULL, 0, NULL, 0, NULL, 0, NULL, 0, NULL, 0, NULL, 0) == 1);
    /* an index and no links: heads and weights may be NULL */
    begin(1, 0);
    HOLDS(dimetumble_dijkstra(1, 0, 0, marks, 1, NULL, 0, NULL, 0, NULL, 0, 0, dist, 1, offsets, 2, NULL, 0, NULL, 0, preds, 1, peaks, 1, words, 1, keys, 1) == 0);
    DISTANCES(0);
    /* m 1,024: the last index */
    begin(1024, 0);
    put(0, 1023, 8);
    HOLDS(ask_dijkstra(0) == 0 && dist[1023] == 8 && dist[1022] == NONE);
}

static void bellman_ford(void)
{
    /* the map of the request */
    begin(3, 1);
    put(0, 1, 5);
    put(1, 2, -2);
    put(0, 2, 4);
    HOLDS(ask_bellman_ford(0) == 0);
    DISTANCES(0, 5, 3);
    KEPT(dist, 3);
    wiped_rows();
    WIPED(queue, bound);
    WIPED(queued, bound);
    WIPED(lengths, bound);
    /* a source that the map has not: 0, every distance none */
    HOLDS(ask_bellman_ford(3) == 0);
    DISTANCES(NONE, NONE, NONE);
    HOLDS(ask_bellman_ford(SIZE_MAX) == 0);
    DISTANCES(NONE, NONE, NONE);
    /* S2, S5: 7, blank */
    begin(1, 1);
    put(0, 0, -1);
    HOLDS(ask_bellman_ford(0) == 7);
    DISTANCES(NONE);
    begin(2, 0);
    put(0, 1, -1);
    HOLDS(ask_bellman_ford(0) == 7);
    DISTANCES(NONE, NONE);
    KEPT(dist, 2);
    wiped_rows();
    WIPED(queue, bound);
    /* S6: a loop out of reach does not count */
    begin(4, 1);
    put(0, 1, 2);
    put(2, 3, -1);
    put(3, 2, 0);
    HOLDS(ask_bellman_ford(0) == 0);
    DISTANCES(0, 2, NONE, NONE);
    /* 2, 1: untouched */
    begin(2, 1);
    lay(0, 2, 1);
    HOLDS(ask_bellman_ford(0) == 2 && untouched());
    HOLDS(dimetumble_bellman_ford(MAP, 0, dist, 1, ROWS, queue, 2, queued, 2, lengths, 2) == 1);
    HOLDS(dimetumble_bellman_ford(MAP, 0, dist, 2, ROWS, queue, 1, queued, 2, lengths, 2) == 1);
    HOLDS(dimetumble_bellman_ford(MAP, 0, dist, 2, ROWS, queue, 2, queued, 1, lengths, 2) == 1);
    HOLDS(dimetumble_bellman_ford(MAP, 0, dist, 2, ROWS, queue, 2, queued, 2, lengths, 1) == 1);
    HOLDS(untouched());
    HOLDS(dimetumble_bellman_ford(0, 0, 1, NULL, 0, NULL, 0, NULL, 0, NULL, 0, 0, NULL, 0, offsets, 1, NULL, 0, NULL, 0, NULL, 0, NULL, 0, NULL, 0) == 0);
    HOLDS(offsets[0] == 0);
}

static void a_star(void)
{
    static const int64_t low[3] = {0, 1, -100}, fair[3] = {0, 1, 0};
    int64_t far[3] = {0, INT64_C(1) << 42, -(INT64_C(1) << 42)};
    /* S7 and S8: a heuristic that is not 0 at the target, and one that is */
    begin(3, 1);
    put(0, 2, 10);
    put(0, 1, 1);
    put(1, 2, 1);
    HOLDS(ask_a_star(0, 2, low, 3) == 0 && cost == 10 && length == 2);
    ENTRIES(path, uint32_t, 0, 2, NIL);
    HOLDS(ask_a_star(0, 2, fair, 3) == 0 && cost == 2 && length == 3);
    ENTRIES(path, uint32_t, 0, 1, 2);
    KEPT(path, 3);
    wiped_rows();
    WIPED(reached, bound);
    WIPED(preds, bound);
    wiped_bag();
    /* source and target are one; no way */
    HOLDS(ask_a_star(1, 1, fair, 3) == 0 && cost == 0 && length == 1);
    ENTRIES(path, uint32_t, 1, NIL, NIL);
    HOLDS(ask_a_star(2, 0, fair, 3) == 0 && cost == NONE && length == 0);
    ENTRIES(path, uint32_t, NIL, NIL, NIL);
    /* 2^42 is fair, one more is 5; absent indices are not asked */
    HOLDS(ask_a_star(0, 0, far, 3) == 0);
    dirty();
    far[1]++;
    HOLDS(ask_a_star(0, 0, far, 3) == 5 && cost == NONE && length == 0 && untouched());
    far[1] = 0;
    far[2]--;
    HOLDS(ask_a_star(0, 0, far, 3) == 5 && untouched());
    /* 4, 3, 1: untouched, cost none, length 0 */
    HOLDS(ask_a_star(0, 3, fair, 3) == 4 && cost == NONE && length == 0 && untouched());
    HOLDS(ask_a_star(3, 3, fair, 3) == 3 && cost == NONE && length == 0 && untouched());
    HOLDS(ask_a_star(0, 2, fair, 2) == 1 && cost == NONE && length == 0 && untouched());
    HOLDS(dimetumble_a_star(MAP, 0, 2, fair, 3, &cost, &length, path, 2, ROWS, reached, 3, MEMORY) == 1 && untouched());
    HOLDS(dimetumble_a_star(MAP, 0, 2, fair, 3, &cost, &length, path, 3, ROWS, reached, 2, MEMORY) == 1 && untouched());
    lay(2, 3, 0);
    HOLDS(ask_a_star(0, 2, fair, 3) == 2 && cost == NONE && length == 0 && untouched());
    /* 6: an arc below zero that is looked at; blank */
    begin(3, 1);
    put(0, 1, -1);
    HOLDS(ask_a_star(0, 2, fair, 3) == 6 && cost == NONE && length == 0);
    ENTRIES(path, uint32_t, NIL, NIL, NIL);
    KEPT(path, 3);
    wiped_rows();
    WIPED(reached, bound);
    WIPED(preds, bound);
    wiped_bag();
    /* one that is not looked at does no harm: the source is the target */
    HOLDS(ask_a_star(0, 0, fair, 3) == 0 && cost == 0);
    HOLDS(dimetumble_a_star(0, 0, 1, NULL, 0, NULL, 0, NULL, 0, NULL, 0, 0, 0, NULL, 0, &cost, &length, NULL, 0, offsets, 1, NULL, 0, NULL, 0, NULL, 0,
              NULL, 0, NULL, 0, NULL, 0, NULL, 0) == 3);
}

/* Are these the first f64 distances, by their bits? */
static int distances64(size_t n, const double *want)
{
    return memcmp(dist64, want, n * sizeof *want) == 0;
}
#define DISTANCES64(...) \
    do { \
        static const double want[] = {__VA_ARGS__}; \
        HOLDS(distances64(sizeof want / sizeof *want, want)); \
    } while (0)
#define NONE64 DIMETUMBLE_NONE_F64

/* The same pattern in every f64 distance and key, and is it there still from entry n on? */
static void fill64(uint64_t pattern)
{
    for (size_t i = 0; i < N_EACH; i++) {
        memcpy(&dist64[i], &pattern, sizeof pattern);
        keys64[i] = pattern;
    }
}
static int stays64(size_t n, uint64_t pattern)
{
    for (size_t i = n; i < N_EACH; i++)
        if (memcmp(&dist64[i], &pattern, sizeof pattern) != 0 || keys64[i] != pattern)
            return 0;
    return 1;
}

static void wiped_f64(void)
{
    WIPED(offsets, DIMETUMBLE_OFFSETS(bound));
    WIPED(heads, DIMETUMBLE_ARCS(count, directed));
    WIPED(weights64, DIMETUMBLE_ARCS(count, directed));
    WIPED(peaks, bound);
    WIPED(words, bound);
    WIPED(keys64, bound);
}

static void dijkstra_path(size_t (*ask)(size_t, uint8_t, double))
{
    begin(4, 1);
    put64(0, 1, 0.5, 1);
    put64(1, 2, 1.5, 7);
    put64(0, 2, 3.0, 1);
    put64(0, 3, 0.25, 0);
    /* closed links are passed over */
    HOLDS(ask(0, 0, 0.0) == 0);
    DISTANCES64(0.0, 0.5, 2.0, NONE64);
    ENTRIES(preds, uint32_t, NIL, 0, 1, NIL);
    KEPT(dist64, 4);
    KEPT(preds, 4);
    wiped_f64();
    /* a total equal to the cutoff is kept, one above it is not; any flag byte but 0 caps */
    HOLDS(ask(0, 255, 2.0) == 0);
    DISTANCES64(0.0, 0.5, 2.0, NONE64);
    HOLDS(ask(0, 1, 0x1.fffffffffffffp0) == 0);
    DISTANCES64(0.0, 0.5, NONE64, NONE64);
    ENTRIES(preds, uint32_t, NIL, 0, NIL, NIL);
    /* below zero: the source alone; -0.0 is not below; a NaN never cuts, and without a cap nothing does */
    HOLDS(ask(0, 1, -1.0) == 0);
    DISTANCES64(0.0, NONE64, NONE64, NONE64);
    HOLDS(ask(0, 1, -0.0) == 0);
    DISTANCES64(0.0, NONE64, NONE64, NONE64);
    HOLDS(ask(0, 1, NAN) == 0);
    DISTANCES64(0.0, 0.5, 2.0, NONE64);
    HOLDS(ask(0, 0, -1.0) == 0);
    DISTANCES64(0.0, 0.5, 2.0, NONE64);
    /* +infinity is a cost and a distance */
    put64(2, 3, INFINITY, 1);
    HOLDS(ask(0, 0, 0.0) == 0);
    DISTANCES64(0.0, 0.5, 2.0, INFINITY);
    HOLDS(preds[3] == 2);
    /* 6: -0.0, below zero, NaN of either sign; blank. Closed, they do no harm */
    static const double bad[] = {-0.0, -1.0, NAN, -NAN};
    for (size_t i = 0; i < sizeof bad / sizeof *bad; i++) {
        dirty();
        put64(2, 3, bad[i], 1);
        HOLDS(ask(0, 0, 0.0) == 6);
        DISTANCES64(NONE64, NONE64, NONE64, NONE64);
        ENTRIES(preds, uint32_t, NIL, NIL, NIL, NIL);
        KEPT(dist64, 4);
        KEPT(preds, 4);
        wiped_f64();
        put64(2, 3, bad[i], 0);
        HOLDS(ask(0, 0, 0.0) == 0);
        DISTANCES64(0.0, 0.5, 2.0, NONE64);
    }
    /* 3, 2, 1: untouched */
    dirty();
    HOLDS(ask(4, 0, 0.0) == 3 && untouched());
    marks[2] = 0;
    HOLDS(ask(0, 0, 0.0) == 2 && untouched());
    marks[2] = 1;
    bound = 1025;
    HOLDS(ask(0, 0, 0.0) == 1 && untouched());
    /* NaNs of any sign and payload stay bit for bit where a number leaves the distances, and past the used part after every number */
    static const uint64_t nans[] = {0x7ff0000000000dea, 0xfff0000000000001, 0x7ff8000000000001, 0xffffffffffffffff};
    bound = 4;
    for (size_t i = 0; i < sizeof nans / sizeof *nans; i++) {
        fill64(nans[i]);
        HOLDS(ask(4, 0, 0.0) == 3 && stays64(0, nans[i]));
        HOLDS(ask(0, 0, 0.0) == 0 && stays64(4, nans[i]));
        DISTANCES64(0.0, 0.5, 2.0, NONE64);
        put64(2, 3, -1.0, 1);
        fill64(nans[i]);
        HOLDS(ask(0, 0, 0.0) == 6 && stays64(4, nans[i]));
        put64(2, 3, -1.0, 0);
    }
}

/* Both names, and the slices of one of them. */
static void dijkstra_paths(void)
{
    dijkstra_path(ask_path);
    dijkstra_path(ask_path_f64);
    begin(2, 1);
    put64(0, 1, 1.0, 1);
    HOLDS(dimetumble_dijkstra_path_impl(MAP64, 0, 0, 0.0, dist64, 1, preds, 2, offsets, 3, heads, 1, weights64, 1, peaks, 2, words, 2, keys64, 2) == 1);
    HOLDS(dimetumble_dijkstra_path_impl(MAP64, 0, 0, 0.0, dist64, 2, preds, 1, offsets, 3, heads, 1, weights64, 1, peaks, 2, words, 2, keys64, 2) == 1);
    HOLDS(dimetumble_dijkstra_path_impl(MAP64, 0, 0, 0.0, dist64, 2, preds, 2, offsets, 3, heads, 1, weights64, 0, peaks, 2, words, 2, keys64, 2) == 1);
    HOLDS(dimetumble_dijkstra_path_impl(MAP64, 0, 0, 0.0, dist64, 2, preds, 2, offsets, 3, heads, 1, weights64, 1, peaks, 2, words, 2, keys64, 1) == 1);
    HOLDS(untouched());
    HOLDS(dimetumble_dijkstra_path_impl(MAP64, 0, 0, 0.0, dist64, 2, preds, 2, offsets, 3, heads, 1, weights64, 1, peaks, 2, words, 2, keys64, 2) == 0);
    DISTANCES64(0.0, 1.0);
    HOLDS(dimetumble_dijkstra_path_impl(0, 0, 1, NULL, 0, NULL, 0, NULL, 0, NULL, 0, NULL, 0, 0, 0, 0.0, NULL, 0, NULL, 0, offsets, 1, NULL, 0, NULL, 0,
              NULL, 0, NULL, 0, NULL, 0) == 3);
    HOLDS(dimetumble_dijkstra_path_f64(0, 0, 1, NULL, 0, NULL, 0, NULL, 0, NULL, 0, NULL, 0, 0, 0, 0.0, NULL, 0, NULL, 0, offsets, 1, NULL, 0, NULL, 0,
              NULL, 0, NULL, 0, NULL, 0) == 3);
}

/* ---- all pairs */
static void matrices(size_t (*ask)(size_t), int rows)
{
    /* present indices 0, 2, 3: three rows */
    begin(4, 1);
    marks[1] = 0;
    put(0, 2, 4);
    put(2, 3, -3);
    put(0, 3, 2);
    HOLDS(ask(9) == 0);
    ENTRIES(matrix, int64_t, 0, 4, 1, NONE, 0, -3, NONE, NONE, 0);
    KEPT(matrix, 9);
    if (rows) {
        wiped_rows();
        WIPED(heights, bound);
        WIPED(reached, bound);
        WIPED(preds, bound);
        wiped_bag();
    } else
        WIPED(ranks, bound);
    /* a matrix of one entry too few: 1; a link to an absent index: 2; untouched */
    dirty();
    HOLDS(ask(8) == 1 && untouched());
    lay(0, 1, 1);
    HOLDS(ask(9) == 2 && untouched());
    /* 7: S2, S6, and every undirected map with a cost below zero; blank */
    begin(1, 1);
    put(0, 0, -1);
    HOLDS(ask(1) == 7 && matrix[0] == NONE);
    begin(4, 1);
    put(0, 1, 2);
    put(2, 3, -1);
    put(3, 2, 0);
    HOLDS(ask(16) == 7);
    ENTRIES(matrix, int64_t, NONE, NONE, NONE, NONE, NONE, NONE, NONE, NONE, NONE, NONE, NONE, NONE, NONE, NONE, NONE, NONE);
    KEPT(matrix, 16);
    if (rows) {
        wiped_rows();
        WIPED(heights, bound);
        wiped_bag();
    } else
        WIPED(ranks, bound);
    begin(2, 0);
    put(0, 1, -1);
    HOLDS(ask(4) == 7);
    put(0, 1, 1);
    HOLDS(ask(4) == 0);
    ENTRIES(matrix, int64_t, 0, 1, 1, 0);
    bound = 1025;
    HOLDS(ask(64) == 1);
}

static void all_pairs(void)
{
    matrices(ask_floyd_warshall, 0);
    matrices(ask_johnson, 1);
    begin(2, 1);
    HOLDS(dimetumble_floyd_warshall(MAP, matrix, 4, ranks, 1) == 1 && untouched());
    HOLDS(dimetumble_johnson(MAP, matrix, 4, ROWS, heights, 1, reached, 2, MEMORY) == 1 && untouched());
    HOLDS(dimetumble_johnson(MAP, matrix, 4, ROWS, heights, 2, reached, 1, MEMORY) == 1 && untouched());
    /* S1: no index, no entries */
    HOLDS(dimetumble_floyd_warshall(0, 0, 1, NULL, 0, NULL, 0, NULL, 0, NULL, 0, NULL, 0, NULL, 0) == 0 && untouched());
    HOLDS(dimetumble_johnson(0, 0, 1, NULL, 0, NULL, 0, NULL, 0, NULL, 0, NULL, 0, offsets, 1, NULL, 0, NULL, 0, NULL, 0, NULL, 0, NULL, 0, NULL, 0,
              NULL, 0, NULL, 0) == 0);
    WIPED(offsets, 1);
}

/* ---- hops */
static void counts_hops(void)
{
    begin(4, 1);
    marks[1] = 0;
    put(0, 2, -100);
    put(2, 3, 5);
    HOLDS(ask_hops(9) == 0 && listed == 3);
    ENTRIES(nodes, uint32_t, 0, 2, 3);
    ENTRIES(hops, uint32_t, 0, 1, 2, NIL, 0, 1, NIL, NIL, 0);
    KEPT(nodes, 3);
    KEPT(hops, 9);
    WIPED(offsets, DIMETUMBLE_OFFSETS(bound));
    WIPED(heads, DIMETUMBLE_ARCS(count, directed));
    WIPED(labels, bound);
    WIPED(queue, DIMETUMBLE_HOPS_QUEUE(bound));
    /* 1, 2: untouched, and nothing listed */
    dirty();
    HOLDS(ask_hops(8) == 1 && listed == 0 && untouched());
    HOLDS(dimetumble_hops(MAP, &listed, nodes, 2, hops, 9, offsets, 5, heads, 2, labels, 4, queue, 5) == 1 && untouched());
    HOLDS(dimetumble_hops(MAP, &listed, nodes, 3, hops, 9, offsets, 5, heads, 2, labels, 4, queue, 4) == 1 && untouched());
    HOLDS(dimetumble_hops(MAP, &listed, nodes, 3, hops, 9, offsets, 5, heads, 2, labels, 3, queue, 5) == 1 && untouched());
    lay(3, 1, 0);
    HOLDS(ask_hops(9) == 2 && listed == 0 && untouched());
    /* an f64 map: closed links count, bad costs do not matter */
    begin(3, 0);
    put64(0, 1, -1.0, 0);
    put64(2, 1, NAN, 1);
    HOLDS(ask_hops_f64(9) == 0 && listed == 3);
    ENTRIES(nodes, uint32_t, 0, 1, 2);
    ENTRIES(hops, uint32_t, 0, 1, 2, 1, 0, 1, 2, 1, 0);
    KEPT(hops, 9);
    WIPED(heads, DIMETUMBLE_ARCS(count, directed));
    dirty();
    HOLDS(ask_hops_f64(8) == 1 && listed == 0 && untouched());
    marks[2] = 0;
    HOLDS(ask_hops_f64(9) == 2 && listed == 0 && untouched());
    /* no index: the queue and the offsets have one entry all the same */
    HOLDS(dimetumble_hops(0, 0, 1, NULL, 0, NULL, 0, NULL, 0, NULL, 0, &listed, NULL, 0, NULL, 0, offsets, 1, NULL, 0, NULL, 0, queue, 1) == 0);
    HOLDS(listed == 0);
    HOLDS(dimetumble_hops_f64(0, 0, 1, NULL, 0, NULL, 0, NULL, 0, NULL, 0, NULL, 0, &listed, NULL, 0, NULL, 0, offsets, 1, NULL, 0, NULL, 0, queue, 1) == 0);
    HOLDS(dimetumble_hops(0, 0, 1, NULL, 0, NULL, 0, NULL, 0, NULL, 0, &listed, NULL, 0, NULL, 0, NULL, 0, NULL, 0, NULL, 0, NULL, 0) == 1);
}

/* ---- the page check */
static void page(void)
{
    int64_t right[3] = {0, 5, 3};
    begin(3, 1);
    put(0, 1, 5);
    put(1, 2, -2);
    put(0, 2, 4);
    HOLDS(ask_page(0, right, 3) == 0 && yes == 1);
    right[2] = 4;
    HOLDS(ask_page(0, right, 3) == 0 && yes == 0);
    right[2] = 2;
    HOLDS(ask_page(0, right, 3) == 0 && yes == 0);
    right[2] = NONE;
    HOLDS(ask_page(0, right, 3) == 0 && yes == 0);
    right[2] = INT64_MAX;
    HOLDS(ask_page(0, right, 3) == 0 && yes == 0);
    right[2] = 3;
    right[0] = 1;
    HOLDS(ask_page(0, right, 3) == 0 && yes == 0);
    right[0] = 0;
    HOLDS(ask_page(3, right, 3) == 3 && yes == 0);
    HOLDS(ask_page(0, right, 2) == 1 && yes == 0);
    marks[1] = 0;
    HOLDS(ask_page(0, right, 3) == 2 && yes == 0);
    HOLDS(untouched());
    yes = 1;
    HOLDS(dimetumble_page(0, 0, 1, NULL, 0, NULL, 0, NULL, 0, NULL, 0, 0, NULL, 0, &yes) == 3 && yes == 0);
    /* what bellman_ford gives gets a yes */
    begin(3, 1);
    put(0, 1, 5);
    put(1, 2, -2);
    HOLDS(ask_bellman_ford(0) == 0 && ask_page(0, dist, 3) == 0 && yes == 1);
}

int main(void)
{
    puts_into_integer_maps();
    puts_into_f64_maps();
    dijkstra();
    bellman_ford();
    a_star();
    dijkstra_paths();
    all_pairs();
    counts_hops();
    page();
    printf("%u checks, %u failed\n", made, failed);
    return failed != 0;
}
