// Boost.Graph: compressed_sparse_row_graph, its fastest structure; an undirected link is two arcs of it.
#include "contender.h"
#include <algorithm>
#include <boost/graph/astar_search.hpp>
#include <boost/graph/bellman_ford_shortest_paths.hpp>
#include <boost/graph/breadth_first_search.hpp>
#include <boost/graph/compressed_sparse_row_graph.hpp>
#include <boost/graph/dijkstra_shortest_paths.hpp>
#include <boost/graph/floyd_warshall_shortest.hpp>
#include <boost/graph/johnson_all_pairs_shortest.hpp>
#include <limits>
#include <vector>

namespace {

// What an arc carries.
struct Arc {
    int64_t cost;
    double length;
};
using Graph = boost::compressed_sparse_row_graph<boost::directedS, boost::no_property, Arc>;
using Node = boost::graph_traits<Graph>::vertex_descriptor;

// A matrix in one piece, with rows as Boost's all-pairs functions index them.
template <class T> struct Matrix {
    size_t side;
    std::vector<T> entries;
    explicit Matrix(size_t m) : side(m), entries(m * m) {}
    T *operator[](size_t i) { return &entries[i * side]; }
    const T *operator[](size_t i) const { return &entries[i * side]; }
};

// The graph and the vectors that searches fill, kept from call to call.
struct Boost {
    Graph graph;
    std::vector<int64_t> dist, rank;
    std::vector<double> real;
    std::vector<Node> preds;
    std::vector<boost::default_color_type> colours;
    Matrix<int64_t> matrix;
    Matrix<uint32_t> hops;
    bool found;
    Boost(Graph g, size_t m) : graph(std::move(g)), dist(m), rank(m), real(m), preds(m), colours(m), matrix(m), hops(m) {}
};

// A vector as a map from nodes to its entries.
template <class T> auto by_node(Boost *b, std::vector<T> &v) {
    return boost::make_iterator_property_map(v.begin(), get(boost::vertex_index, b->graph));
}

const int64_t FAR = std::numeric_limits<int64_t>::max();
const double FAR_REAL = std::numeric_limits<double>::max();

// Thrown by a visitor to end a search.
struct Stop {};

// Ends a search at the target, as Boost's own A* example does.
struct AtTarget : boost::default_astar_visitor {
    Node target;
    explicit AtTarget(Node t) : target(t) {}
    template <class G> void examine_vertex(Node u, const G &) {
        if (u == target) throw Stop();
    }
};

// Ends a search at the first node beyond the cutoff.
struct AtCutoff : boost::default_dijkstra_visitor {
    const double *real, cutoff;
    AtCutoff(const double *r, double c) : real(r), cutoff(c) {}
    template <class G> void examine_vertex(Node u, const G &) {
        if (real[u] > cutoff) throw Stop();
    }
};

// The heuristic, read from the query.
struct Guess : boost::astar_heuristic<Graph, int64_t> {
    const int64_t *guess;
    explicit Guess(const int64_t *g) : guess(g) {}
    int64_t operator()(Node v) const { return guess[v]; }
};

// A compact graph from the arcs in any order.
void *build(const map *map) {
    std::vector<std::pair<size_t, size_t>> ends;
    std::vector<Arc> arcs;
    for (size_t i = 0; i < map->count; i++) {
        Arc arc{map->costs[i], map->lengths[i]};
        ends.push_back({map->from[i], map->to[i]});
        arcs.push_back(arc);
        if (map->directed) continue;
        ends.push_back({map->to[i], map->from[i]});
        arcs.push_back(arc);
    }
    Graph graph(boost::edges_are_unsorted_multi_pass, ends.begin(), ends.end(), arcs.begin(), map->bound);
    return new Boost(std::move(graph), map->bound);
}

// Distances and predecessors, up to the cutoff.
void f64_search(Boost *b, size_t source, double cutoff) {
    try {
        boost::dijkstra_shortest_paths(b->graph, Node(source),
                                       boost::weight_map(get(&Arc::length, b->graph))
                                           .distance_map(by_node(b, b->real))
                                           .predecessor_map(by_node(b, b->preds))
                                           .visitor(AtCutoff(b->real.data(), cutoff)));
    } catch (Stop) {
    }
}

// A* to the target; `found` says whether it was reached.
void a_star(Boost *b, const struct query *query) {
    b->found = false;
    try {
        boost::astar_search(b->graph, Node(query->source), Guess(query->guess),
                            boost::weight_map(get(&Arc::cost, b->graph))
                                .distance_map(by_node(b, b->dist))
                                .predecessor_map(by_node(b, b->preds))
                                .rank_map(by_node(b, b->rank))
                                .color_map(by_node(b, b->colours))
                                .visitor(AtTarget(query->target)));
    } catch (Stop) {
        b->found = true;
    }
}

// Bellman and Ford as Boost has it: rounds over all arcs. False if a loop is below zero.
bool bellman_ford(Boost *b, size_t source) {
    return boost::bellman_ford_shortest_paths(b->graph, int(b->dist.size()),
                                       boost::weight_map(get(&Arc::cost, b->graph))
                                           .distance_map(by_node(b, b->dist))
                                           .predecessor_map(by_node(b, b->preds))
                                           .root_vertex(Node(source)));
}

// A breadth-first search from each index that records distances into its row.
void all_hops(Boost *b) {
    std::fill(b->hops.entries.begin(), b->hops.entries.end(), NONE_NODE);
    for (size_t s = 0; s < b->hops.side; s++) {
        b->hops[s][s] = 0;
        auto recorder = boost::make_bfs_visitor(boost::record_distances(b->hops[s], boost::on_tree_edge()));
        boost::breadth_first_search(b->graph, Node(s), boost::visitor(recorder).color_map(by_node(b, b->colours)));
    }
}

// A negative loop shows as false.
outcome ended(bool well) { return well ? ANSWERED : REFUSED; }

outcome ask(void *graph, const struct query *query) {
    auto *b = static_cast<Boost *>(graph);
    auto costs = get(&Arc::cost, b->graph);
    switch (query->question) {
    case DIJKSTRA:
        boost::dijkstra_shortest_paths(b->graph, Node(query->source), boost::weight_map(costs).distance_map(by_node(b, b->dist)));
        return ANSWERED;
    case A_STAR: a_star(b, query); return ANSWERED;
    case F64: f64_search(b, query->source, FAR_REAL); return ANSWERED;
    case F64_CUTOFF: f64_search(b, query->source, query->cutoff); return ANSWERED;
    case BELLMAN_FORD: return ended(bellman_ford(b, query->source));
    case FLOYD_WARSHALL: return ended(boost::floyd_warshall_all_pairs_shortest_paths(b->graph, b->matrix, boost::weight_map(costs)));
    case JOHNSON: return ended(boost::johnson_all_pairs_shortest_paths(b->graph, b->matrix, boost::weight_map(costs)));
    case HOPS: all_hops(b); return ANSWERED;
    default: return LACKED;
    }
}

void tell(void *graph, const struct query *query, answer *answer) {
    auto *b = static_cast<Boost *>(graph);
    size_t m = b->dist.size();
    switch (query->question) {
    case DIJKSTRA:
    case BELLMAN_FORD:
        for (size_t v = 0; v < m; v++) answer->whole[v] = b->dist[v] == FAR ? NONE : b->dist[v];
        break;
    case A_STAR:
        answer->length = 0;
        answer->cost = b->found ? b->dist[query->target] : NONE;
        if (!b->found) break;
        for (Node u = query->target;; u = b->preds[u]) {
            answer->nodes[answer->length++] = u;
            if (u == query->source) break;
        }
        std::reverse(answer->nodes, answer->nodes + answer->length);
        break;
    case F64:
    case F64_CUTOFF: {
        double cutoff = query->question == F64 ? FAR_REAL : query->cutoff;
        answer->length = 1;
        for (size_t v = 0; v < m; v++) {
            bool kept = b->real[v] != FAR_REAL && b->real[v] <= cutoff;
            answer->real[v] = kept ? b->real[v] : NONE_REAL;
            answer->nodes[v] = kept && b->preds[v] != v ? b->preds[v] : NONE_NODE;
        }
        break;
    }
    case HOPS:
        for (size_t i = 0; i < m * m; i++) answer->whole[i] = b->hops.entries[i] == NONE_NODE ? NONE : b->hops.entries[i];
        break;
    default:
        for (size_t i = 0; i < m * m; i++) answer->whole[i] = b->matrix.entries[i] == FAR ? NONE : b->matrix.entries[i];
    }
}

void drop(void *graph) { delete static_cast<Boost *>(graph); }

} // namespace

extern "C" const contender boost_contender = {build, ask, tell, drop};
