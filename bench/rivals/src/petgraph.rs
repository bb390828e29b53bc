//! petgraph: `Graph`, and the functions of its `algo`. Its bellman_ford takes f64 costs alone; its
//! dijkstra gives no predecessors; it has no cutoff, no johnson and no hop matrix. Its floyd_warshall
//! (0.6.2) takes an undirected link in its stored direction alone, so it is asked on directed maps only.
use crate::{Answer, Map, Query, Question, Rival};
use petgraph::algo::{astar, bellman_ford, dijkstra, floyd_warshall};
use petgraph::graph::{Graph, NodeIndex};
use petgraph::{Directed, EdgeType, Undirected};
use std::collections::HashMap;

/// The last answer, as the library gave it.
enum Given {
    Nothing,
    Distances(HashMap<NodeIndex, i64>),
    Real(HashMap<NodeIndex, f64>),
    Rounds(Vec<f64>),
    Path(Option<(i64, Vec<NodeIndex>)>),
    Matrix(HashMap<(NodeIndex, NodeIndex), i64>),
}

/// One map as the library's graphs, one for each kind of cost.
struct Petgraph<Ty: EdgeType> {
    whole: Graph<(), i64, Ty>,
    costs: Graph<(), f64, Ty>,
    lengths: Graph<(), f64, Ty>,
    given: Given,
}

/// The graphs of a map, directed or undirected.
pub fn build(map: &Map) -> Box<dyn Rival> {
    if map.directed != 0 {
        Box::new(Petgraph::<Directed>::new(map))
    } else {
        Box::new(Petgraph::<Undirected>::new(map))
    }
}

/// A graph of the map with one of its costs.
fn graph<W, Ty: EdgeType>(map: &Map, cost: impl Fn(i64, f64) -> W) -> Graph<(), W, Ty> {
    let mut graph = Graph::default();
    let nodes: Vec<NodeIndex> = (0..map.bound).map(|_| graph.add_node(())).collect();
    for (u, v, whole, real) in map.links() {
        graph.add_edge(nodes[u], nodes[v], cost(whole, real));
    }
    graph
}

impl<Ty: EdgeType> Petgraph<Ty> {
    /// Every index a node, every link an edge.
    fn new(map: &Map) -> Self {
        Petgraph {
            whole: graph(map, |whole, _| whole),
            costs: graph(map, |whole, _| whole as f64),
            lengths: graph(map, |_, real| real),
            given: Given::Nothing,
        }
    }
}

impl<Ty: EdgeType> Rival for Petgraph<Ty> {
    fn ask(&mut self, query: &Query) -> bool {
        let source = NodeIndex::new(query.source);
        let target = NodeIndex::new(query.target);
        self.given = match query.question {
            Question::Dijkstra => {
                Given::Distances(dijkstra(&self.whole, source, None, |e| *e.weight()))
            }
            Question::AStar => Given::Path(astar(
                &self.whole,
                source,
                |u| u == target,
                |e| *e.weight(),
                |u| query.guess(u.index()),
            )),
            Question::F64 => Given::Real(dijkstra(&self.lengths, source, None, |e| *e.weight())),
            Question::BellmanFord => {
                Given::Rounds(bellman_ford(&self.costs, source).unwrap().distances)
            }
            Question::FloydWarshall if self.whole.is_directed() => {
                Given::Matrix(floyd_warshall(&self.whole, |e| *e.weight()).unwrap())
            }
            _ => return false,
        };
        true
    }

    fn tell(&mut self, _: &Query, answer: &mut Answer) {
        let m = self.whole.node_count();
        match std::mem::replace(&mut self.given, Given::Nothing) {
            Given::Nothing => {}
            Given::Distances(all) => {
                let out = answer.whole(m);
                all.iter().for_each(|(v, d)| out[v.index()] = *d);
            }
            Given::Real(all) => {
                answer.length = 0;
                let (real, _) = answer.real(m);
                all.iter().for_each(|(v, d)| real[v.index()] = *d);
            }
            Given::Rounds(all) => {
                let out = answer.whole(m);
                all.iter()
                    .zip(out)
                    .filter(|(d, _)| d.is_finite())
                    .for_each(|(d, x)| *x = *d as i64);
            }
            Given::Path(path) => answer
                .path(path.map(|(cost, nodes)| (cost, nodes.iter().map(|u| u.index()).collect()))),
            Given::Matrix(all) => {
                let out = answer.whole(m * m);
                for ((u, v), d) in all.iter().filter(|(_, d)| **d != i64::MAX) {
                    out[u.index() * m + v.index()] = *d;
                }
            }
        }
    }
}
