/* Dimetumble: cheapest paths over a table of carrier links, each function proved to meet its contract.
 *
 * A map is lent by its parts, in this order, to every function:
 *   bound     m: indices are 0 to m - 1, at most DIMETUMBLE_INDICES of them
 *   count     how many links the table has, at most DIMETUMBLE_LINKS
 *   directed  0: a link is an arc each way; any other byte: an arc from its first end to its second
 *   marks     m bytes: 0 is an absent index, any other a present one
 *   from, to  the ends of each link
 *   costs     the cost of each link: any 32-bit number (integer maps)
 *   bits      the cost of each link: the 64-bit pattern of an f64, any pattern (f64 maps)
 *   opens     a byte for each link: 0 is closed, any other open (f64 maps)
 * p is the number of present indices. Room is the shortest of the table's slices, at most DIMETUMBLE_LINKS.
 *
 * A slice is a pointer and a length in entries. Beyond memory, nothing is asked of a caller: each function checks the map
 * itself, and refuses what it cannot use by a number. Of the memory it is asked that
 *   - a slice has the length that is said, or is NULL with length 0;
 *   - a single place (count of a put, cost, length, listed, yes) is there: it may not be NULL;
 *   - what a function may write overlaps nothing else that is lent to it.
 * Functions allocate nothing and keep nothing between calls, so threads may call them at once on memory of their own.
 *
 * The number that comes back is the first of these that applies:
 *   0  done
 *   1  m over DIMETUMBLE_INDICES, marks shorter than m, count over room, or another slice shorter than the part used; untouched
 *   2  a link, or the record put, names an index that the map has not; untouched
 *   3  the source is an index that the map has not; untouched
 *   4  the target is; untouched
 *   5  a present index has a heuristic outside -2^42 ..= 2^42; untouched
 *   6  a bad cost was met; outputs blank
 *   7  costs loop below zero; outputs blank
 *   8  the table has no room for a new link; untouched
 * Untouched: every lent slice is as before. Blank: none in every entry used.
 * Entries past the part used always stay as they were. Absent indices hold none.
 * Scratch: what a function needs of it is zero after 0, 6 and 7; what it holds before a call does not matter.
 */
#ifndef DIMETUMBLE_H
#define DIMETUMBLE_H

#include <stddef.h>
#include <stdint.h>

#ifdef __cplusplus
extern "C" {
#endif

/* The archive is for machines with 64-bit sizes. */
typedef char dimetumble_sizes_have_64_bits[sizeof(size_t) == 8 ? 1 : -1];

/* The limits of a map. */
#define DIMETUMBLE_INDICES 1024
#define DIMETUMBLE_LINKS 8192

/* None: of a distance or cost, of an f64 distance, of a predecessor, path or hop entry. */
#define DIMETUMBLE_NONE_I64 INT64_MIN
#define DIMETUMBLE_NONE_F64 (-1.0)
#define DIMETUMBLE_NONE_U32 UINT32_MAX

/* The numbers that come back. */
enum {
    DIMETUMBLE_DONE = 0,
    DIMETUMBLE_TOO_SHORT = 1,
    DIMETUMBLE_BAD_LINK = 2,
    DIMETUMBLE_NO_SOURCE = 3,
    DIMETUMBLE_NO_TARGET = 4,
    DIMETUMBLE_BAD_HEURISTIC = 5,
    DIMETUMBLE_BAD_COST = 6,
    DIMETUMBLE_NEGATIVE_LOOP = 7,
    DIMETUMBLE_FULL = 8
};

/* What slices need, in entries. Every other scratch slice needs bound entries. */
#define DIMETUMBLE_ARCS(count, directed) ((directed) ? (size_t)(count) : 2 * (size_t)(count)) /* heads, weights */
#define DIMETUMBLE_OFFSETS(bound) ((size_t)(bound) + 1)                                       /* offsets */
#define DIMETUMBLE_HOPS_QUEUE(bound) ((size_t)(bound) + 1)                                    /* queue of hops */
#define DIMETUMBLE_MATRIX(present) ((size_t)(present) * (size_t)(present))                    /* matrix, present being p */

/* Puts a record into an integer map. The first link with these ends (in either order if undirected) gets the cost and
 * keeps its place and its ends; a new link goes at the end, and *count grows by one.
 * Gives 0, 1, 2 or 8. After a refusal nothing is changed, *count neither. */
size_t dimetumble_put(
    size_t bound, size_t *count, uint8_t directed,
    const uint8_t *marks, size_t marks_len,
    uint16_t *from, size_t from_len,
    uint16_t *to, size_t to_len,
    int32_t *costs, size_t costs_len,
    uint16_t a, uint16_t b, int32_t cost);

/* Puts a record into an f64 map: the cost's pattern and the open mark are replaced together, both stored as given.
 * Gives 0, 1, 2 or 8, as dimetumble_put. */
size_t dimetumble_put_f64(
    size_t bound, size_t *count, uint8_t directed,
    const uint8_t *marks, size_t marks_len,
    uint16_t *from, size_t from_len,
    uint16_t *to, size_t to_len,
    uint64_t *bits, size_t bits_len,
    uint8_t *opens, size_t opens_len,
    uint16_t a, uint16_t b, uint64_t pattern, uint8_t opened);

/* The least totals from a source: dist[v] is the least total of a walk to v, none without a walk.
 * Gives 0, 1, 2, 3, or 6 exactly when an arc below zero leaves an index in reach of the source.
 * dist: bound entries. Scratch: offsets, heads, weights; preds, peaks, words, keys of bound entries. */
size_t dimetumble_dijkstra(
    size_t bound, size_t count, uint8_t directed,
    const uint8_t *marks, size_t marks_len,
    const uint16_t *from, size_t from_len,
    const uint16_t *to, size_t to_len,
    const int32_t *costs, size_t costs_len,
    size_t source,
    int64_t *dist, size_t dist_len,
    size_t *offsets, size_t offsets_len,
    uint16_t *heads, size_t heads_len,
    int64_t *weights, size_t weights_len,
    uint32_t *preds, size_t preds_len,
    size_t *peaks, size_t peaks_len,
    size_t *words, size_t words_len,
    int64_t *keys, size_t keys_len);

/* A path from a source to a target, by a heuristic: guess[v] for each index v.
 * After 0, *cost is the path's cost, *length how many indices the path has, and path holds them, source first, then none
 * up to bound; without a path *cost is none and *length 0. The cost is the least total where the heuristic is 0 at the
 * target and nowhere more than the total of a walk from there to the target.
 * Whatever the heuristic is, the search follows the pending bag: an index whose distance falls after it was taken is taken
 * again. With a consistent heuristic (at no index more than the cost of an arc plus the heuristic at its head) that is
 * known not to happen, though it is not proved here; with another one the takes can double with each index: 31 indices
 * and 435 links took about 20 s, here (built by an older Rattle kit) and in graphina. Who takes heuristics from others
 * should check them first, or limit the time around the call.
 * Gives 0, 1, 2, 3, 4, 5, or 6 when an arc below zero is looked at. After a refusal *cost is none and *length 0.
 * guess, path: bound entries. Scratch: offsets, heads, weights; dist, preds, peaks, words, keys of bound entries. */
size_t dimetumble_a_star(
    size_t bound, size_t count, uint8_t directed,
    const uint8_t *marks, size_t marks_len,
    const uint16_t *from, size_t from_len,
    const uint16_t *to, size_t to_len,
    const int32_t *costs, size_t costs_len,
    size_t source, size_t target,
    const int64_t *guess, size_t guess_len,
    int64_t *cost, size_t *length,
    uint32_t *path, size_t path_len,
    size_t *offsets, size_t offsets_len,
    uint16_t *heads, size_t heads_len,
    int64_t *weights, size_t weights_len,
    int64_t *dist, size_t dist_len,
    uint32_t *preds, size_t preds_len,
    size_t *peaks, size_t peaks_len,
    size_t *words, size_t words_len,
    int64_t *keys, size_t keys_len);

/* Distances and predecessors from a source over the open arcs of an f64 map. With capped other than 0, totals above the
 * cutoff are not stored; one equal to it is, and a NaN cuts nothing. With capped 0 the cutoff is not looked at.
 * Gives 0, 1, 2, 3, or 6 when an open arc looked at has its sign bit set (-0.0 too) or is a NaN.
 * dist, preds: bound entries; the source's distance is 0.0 and its predecessor none. What is proved speaks of dist as the
 * 64-bit patterns of its doubles, in the same memory: an entry that is to stay as it was stays bit for bit, a NaN too.
 * Scratch: offsets, heads, weights; peaks, words, keys of bound entries. */
size_t dimetumble_dijkstra_path_impl(
    size_t bound, size_t count, uint8_t directed,
    const uint8_t *marks, size_t marks_len,
    const uint16_t *from, size_t from_len,
    const uint16_t *to, size_t to_len,
    const uint64_t *bits, size_t bits_len,
    const uint8_t *opens, size_t opens_len,
    size_t source, uint8_t capped, double cutoff,
    double *dist, size_t dist_len,
    uint32_t *preds, size_t preds_len,
    size_t *offsets, size_t offsets_len,
    uint16_t *heads, size_t heads_len,
    uint64_t *weights, size_t weights_len,
    size_t *peaks, size_t peaks_len,
    size_t *words, size_t words_len,
    uint64_t *keys, size_t keys_len);

/* The same under its second name: the Rust has two functions, one given a closure and one the open links alone. */
size_t dimetumble_dijkstra_path_f64(
    size_t bound, size_t count, uint8_t directed,
    const uint8_t *marks, size_t marks_len,
    const uint16_t *from, size_t from_len,
    const uint16_t *to, size_t to_len,
    const uint64_t *bits, size_t bits_len,
    const uint8_t *opens, size_t opens_len,
    size_t source, uint8_t capped, double cutoff,
    double *dist, size_t dist_len,
    uint32_t *preds, size_t preds_len,
    size_t *offsets, size_t offsets_len,
    uint16_t *heads, size_t heads_len,
    uint64_t *weights, size_t weights_len,
    size_t *peaks, size_t peaks_len,
    size_t *words, size_t words_len,
    uint64_t *keys, size_t keys_len);

/* The least totals from a source, of signed costs: dist[v] as in dimetumble_dijkstra. A source that the map has not gives 0
 * with every distance none.
 * Gives 0, 1, 2, or 7 exactly when a closed walk below zero is in reach of the source.
 * dist: bound entries. Scratch: offsets, heads, weights; queue, queued, lengths of bound entries. */
size_t dimetumble_bellman_ford(
    size_t bound, size_t count, uint8_t directed,
    const uint8_t *marks, size_t marks_len,
    const uint16_t *from, size_t from_len,
    const uint16_t *to, size_t to_len,
    const int32_t *costs, size_t costs_len,
    size_t source,
    int64_t *dist, size_t dist_len,
    size_t *offsets, size_t offsets_len,
    uint16_t *heads, size_t heads_len,
    int64_t *weights, size_t weights_len,
    size_t *queue, size_t queue_len,
    size_t *queued, size_t queued_len,
    size_t *lengths, size_t lengths_len);

/* The least totals between all pairs: matrix[i * p + j] is that of a walk from the i-th present index to the j-th, in
 * rising order; none without a walk, 0 on the diagonal.
 * Gives 0, 1, 2, or 7 exactly when a closed walk below zero is anywhere in the map.
 * matrix: p * p entries. Scratch: ranks of bound entries. */
size_t dimetumble_floyd_warshall(
    size_t bound, size_t count, uint8_t directed,
    const uint8_t *marks, size_t marks_len,
    const uint16_t *from, size_t from_len,
    const uint16_t *to, size_t to_len,
    const int32_t *costs, size_t costs_len,
    int64_t *matrix, size_t matrix_len,
    size_t *ranks, size_t ranks_len);

/* The same answer as dimetumble_floyd_warshall, by one search from each index: faster where links are few.
 * Scratch: offsets, heads, weights; heights, dist, preds, peaks, words, keys of bound entries. */
size_t dimetumble_johnson(
    size_t bound, size_t count, uint8_t directed,
    const uint8_t *marks, size_t marks_len,
    const uint16_t *from, size_t from_len,
    const uint16_t *to, size_t to_len,
    const int32_t *costs, size_t costs_len,
    int64_t *matrix, size_t matrix_len,
    size_t *offsets, size_t offsets_len,
    uint16_t *heads, size_t heads_len,
    int64_t *weights, size_t weights_len,
    int64_t *heights, size_t heights_len,
    int64_t *dist, size_t dist_len,
    uint32_t *preds, size_t preds_len,
    size_t *peaks, size_t peaks_len,
    size_t *words, size_t words_len,
    int64_t *keys, size_t keys_len);

/* The least numbers of arcs between all pairs (all_pairs_shortest_path_length): nodes holds the p present indices in rising
 * order, matrix[i * p + j] the least number of arcs of a walk from the i-th to the j-th, none without a walk. Costs do
 * not matter. *listed is p after 0, else 0.
 * Gives 0, 1 or 2.
 * nodes: p entries. matrix: p * p entries. Scratch: offsets, heads; labels of bound entries; queue of bound + 1. */
size_t dimetumble_hops(
    size_t bound, size_t count, uint8_t directed,
    const uint8_t *marks, size_t marks_len,
    const uint16_t *from, size_t from_len,
    const uint16_t *to, size_t to_len,
    const int32_t *costs, size_t costs_len,
    size_t *listed,
    uint32_t *nodes, size_t nodes_len,
    uint32_t *matrix, size_t matrix_len,
    size_t *offsets, size_t offsets_len,
    uint16_t *heads, size_t heads_len,
    size_t *labels, size_t labels_len,
    size_t *queue, size_t queue_len);

/* The same of an f64 map: closed links count as arcs too. */
size_t dimetumble_hops_f64(
    size_t bound, size_t count, uint8_t directed,
    const uint8_t *marks, size_t marks_len,
    const uint16_t *from, size_t from_len,
    const uint16_t *to, size_t to_len,
    const uint64_t *bits, size_t bits_len,
    const uint8_t *opens, size_t opens_len,
    size_t *listed,
    uint32_t *nodes, size_t nodes_len,
    uint32_t *matrix, size_t matrix_len,
    size_t *offsets, size_t offsets_len,
    uint16_t *heads, size_t heads_len,
    size_t *labels, size_t labels_len,
    size_t *queue, size_t queue_len);

/* Checks a page of distances that another program gives. *yes becomes 1 exactly when the source has 0, no arc leads from
 * an index with a distance to one with none or with more than distance plus cost, each other index with a distance has
 * an arc into it, from an index with a distance, that meets it exactly, and every distance is within -2^42 ..= 2^42;
 * else 0. The distances that dimetumble_bellman_ford gives with 0 from a source that the map has get a yes.
 * The rule is local, and a yes does not say that the distances are the least totals: around a loop that totals 0 they can
 * meet each other without a walk from the source. On the directed links 1 to 2 and 2 to 1 of cost 0, with source 0, the
 * page 0, 7, 7 gets a yes.
 * Gives 0, 1, 2 or 3; after a refusal *yes is 0.
 * page: bound entries. No scratch. */
size_t dimetumble_page(
    size_t bound, size_t count, uint8_t directed,
    const uint8_t *marks, size_t marks_len,
    const uint16_t *from, size_t from_len,
    const uint16_t *to, size_t to_len,
    const int32_t *costs, size_t costs_len,
    size_t source,
    const int64_t *page, size_t page_len,
    uint8_t *yes);

#ifdef __cplusplus
}
#endif

#endif
