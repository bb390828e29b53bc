// LEMON: StaticDigraph, its fastest structure; an undirected link is two arcs of it.
#include "contender.h"
#include <algorithm>
#include <lemon/bellman_ford.h>
#include <lemon/bfs.h>
#include <lemon/dijkstra.h>
#include <lemon/static_graph.h>
#include <numeric>
#include <vector>

using Graph = lemon::StaticDigraph;
using Whole = Graph::ArcMap<int64_t>;
using Real = Graph::ArcMap<double>;

namespace {

// The graph, and one search object of each kind, kept from call to call.
struct Lemon {
    Graph graph;
    Whole costs{graph};
    Real lengths{graph};
    lemon::Dijkstra<Graph, Whole> dijkstra{graph, costs};
    lemon::Dijkstra<Graph, Real> f64{graph, lengths};
    lemon::BellmanFord<Graph, Whole> bellman_ford{graph, costs};
    lemon::Bfs<Graph> bfs{graph};
    std::vector<int64_t> hops;
};

// Arcs sorted by their first end, as StaticDigraph wants them.
void *build(const map *map) {
    auto *l = new Lemon;
    struct Arc {
        int from, to;
        size_t link;
    };
    std::vector<Arc> arcs;
    for (size_t i = 0; i < map->count; i++) {
        arcs.push_back({map->from[i], map->to[i], i});
        if (!map->directed) arcs.push_back({map->to[i], map->from[i], i});
    }
    std::stable_sort(arcs.begin(), arcs.end(), [](const Arc &a, const Arc &b) { return a.from < b.from; });
    std::vector<std::pair<int, int>> ends;
    for (const Arc &a : arcs) ends.push_back({a.from, a.to});
    l->graph.build(map->bound, ends.begin(), ends.end());
    for (size_t i = 0; i < arcs.size(); i++) {
        l->costs[l->graph.arc(i)] = map->costs[arcs[i].link];
        l->lengths[l->graph.arc(i)] = map->lengths[arcs[i].link];
    }
    l->hops.resize(map->bound * map->bound);
    return l;
}

// A breadth-first search from each index; its counts are copied out, as each run replaces the last.
void all_hops(Lemon *l) {
    int m = l->graph.nodeNum();
    for (int s = 0; s < m; s++) {
        l->bfs.run(l->graph.node(s));
        for (int v = 0; v < m; v++) l->hops[size_t(s) * m + v] = l->bfs.reached(l->graph.node(v)) ? l->bfs.dist(l->graph.node(v)) : NONE;
    }
}

// The search stopped at the first node beyond the cutoff.
void run_to_cutoff(Lemon *l, Graph::Node source, double cutoff) {
    l->f64.init();
    l->f64.addSource(source);
    while (!l->f64.emptyQueue() && l->f64.currentDist(l->f64.nextNode()) <= cutoff) l->f64.processNextNode();
}

outcome ask(void *graph, const struct query *query) {
    auto *l = static_cast<Lemon *>(graph);
    auto source = l->graph.node(query->source);
    switch (query->question) {
    case DIJKSTRA: l->dijkstra.run(source); return ANSWERED;
    case F64: l->f64.run(source); return ANSWERED;
    case F64_CUTOFF: run_to_cutoff(l, source, query->cutoff); return ANSWERED;
    case BELLMAN_FORD: l->bellman_ford.run(source); return ANSWERED;
    case HOPS: all_hops(l); return ANSWERED;
    default: return LACKED;
    }
}

void tell(void *graph, const struct query *query, answer *answer) {
    auto *l = static_cast<Lemon *>(graph);
    answer->length = 1;
    for (int i = 0; i < l->graph.nodeNum(); i++) {
        auto v = l->graph.node(i);
        switch (query->question) {
        case DIJKSTRA: answer->whole[i] = l->dijkstra.reached(v) ? l->dijkstra.dist(v) : NONE; break;
        case BELLMAN_FORD: answer->whole[i] = l->bellman_ford.reached(v) ? l->bellman_ford.dist(v) : NONE; break;
        case F64:
        case F64_CUTOFF: {
            bool kept = l->f64.processed(v);
            auto arc = kept ? l->f64.predArc(v) : Graph::Arc(lemon::INVALID);
            answer->real[i] = kept ? l->f64.dist(v) : NONE_REAL;
            answer->nodes[i] = arc == lemon::INVALID ? NONE_NODE : l->graph.index(l->graph.source(arc));
            break;
        }
        default: break;
        }
    }
    if (query->question == HOPS) std::copy(l->hops.begin(), l->hops.end(), answer->whole);
}

void drop(void *graph) { delete static_cast<Lemon *>(graph); }

} // namespace

extern "C" const contender lemon_contender = {build, ask, tell, drop};
