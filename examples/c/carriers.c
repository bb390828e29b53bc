/* A provider with three carriers asks which way to its customer is cheapest.
 *
 *   cc -Iinclude examples/c/carriers.c libdimetumble.a -o carriers && ./carriers
 */
#include <inttypes.h>
#include <stdio.h>

#include "dimetumble.h"

/* The indices of the map: the provider, its carriers, the customer. */
enum { PROVIDER, AMBER, BIRCH, CEDAR, CUSTOMER, BOUND };
static const char *const names[BOUND] = {"provider", "amber", "birch", "cedar", "customer"};

/* The table: room for ten links, none so far. All five indices are present, and a link leads one way. */
enum { ROOM = 10, DIRECTED = 1 };
static const uint8_t marks[BOUND] = {1, 1, 1, 1, 1};
static uint16_t from[ROOM], to[ROOM];
static int32_t costs[ROOM];
static size_t count = 0;

/* Scratch, as long as a full table needs. What it holds does not matter. */
static size_t offsets[DIMETUMBLE_OFFSETS(BOUND)], queue[BOUND], queued[BOUND], lengths[BOUND], peaks[BOUND], words[BOUND];
static uint16_t heads[DIMETUMBLE_ARCS(ROOM, DIRECTED)];
static int64_t weights[DIMETUMBLE_ARCS(ROOM, DIRECTED)], reached[BOUND], keys[BOUND];
static uint32_t preds[BOUND];

/* A link record arrives. */
static void put(uint16_t a, uint16_t b, int32_t cost)
{
    size_t number = dimetumble_put(BOUND, &count, DIRECTED, marks, BOUND, from, ROOM, to, ROOM, costs, ROOM, a, b, cost);
    printf("%s to %s at %" PRId32 ": number %zu, %zu links\n", names[a], names[b], cost, number, count);
}

/* What it costs to reach each index from the provider, credits and all; and does the check of pages agree? */
static void show_totals(void)
{
    int64_t dist[BOUND];
    uint8_t yes;
    size_t number = dimetumble_bellman_ford(BOUND, count, DIRECTED, marks, BOUND, from, ROOM, to, ROOM, costs, ROOM, PROVIDER,
        dist, BOUND, offsets, BOUND + 1, heads, ROOM, weights, ROOM, queue, BOUND, queued, BOUND, lengths, BOUND);
    if (number != DIMETUMBLE_DONE) {
        printf("bellman_ford: refused %zu\n", number);
        return;
    }
    for (int v = 0; v < BOUND; v++)
        if (dist[v] == DIMETUMBLE_NONE_I64)
            printf("  %s: no way there\n", names[v]);
        else
            printf("  %s: %" PRId64 "\n", names[v], dist[v]);
    number = dimetumble_page(BOUND, count, DIRECTED, marks, BOUND, from, ROOM, to, ROOM, costs, ROOM, PROVIDER, dist, BOUND, &yes);
    printf("page check: number %zu, %s\n", number, yes ? "yes" : "no");
}

/* The cheapest way to the customer. Where no cost is below zero a heuristic of 0 is never too high, so the cost given is the
 * least; with credits it would be too high at some index, and bellman_ford is the one to ask. */
static void show_path(void)
{
    static const int64_t guess[BOUND] = {0};
    uint32_t path[BOUND];
    int64_t cost;
    size_t length;
    size_t number = dimetumble_a_star(BOUND, count, DIRECTED, marks, BOUND, from, ROOM, to, ROOM, costs, ROOM, PROVIDER, CUSTOMER,
        guess, BOUND, &cost, &length, path, BOUND, offsets, BOUND + 1, heads, ROOM, weights, ROOM, reached, BOUND, preds, BOUND,
        peaks, BOUND, words, BOUND, keys, BOUND);
    if (number != DIMETUMBLE_DONE) {
        printf("a_star: refused %zu\n", number);
        return;
    }
    printf("cost %" PRId64 ":", cost);
    for (size_t i = 0; i < length; i++)
        printf(" %s", names[path[i]]);
    printf("\n");
}

int main(void)
{
    put(PROVIDER, AMBER, 4);
    put(PROVIDER, BIRCH, 7);
    put(PROVIDER, CEDAR, 9);
    put(AMBER, CUSTOMER, 6);
    put(BIRCH, CUSTOMER, 1);
    put(CEDAR, CUSTOMER, 3);
    show_path();

    printf("amber is sent again, cheaper\n");
    put(PROVIDER, AMBER, 1);
    show_path();

    printf("cedar pays a peering credit\n");
    put(CEDAR, CUSTOMER, -5);
    show_totals();

    printf("the customer's link back makes costs loop below zero\n");
    put(CUSTOMER, CEDAR, 2);
    show_totals();
    return 0;
}
