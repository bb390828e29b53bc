//! The original: its own graph, its own answers (hash maps keyed by node).
use crate::{Answer, Map, Query, Question, Rival};
use graphina::core::paths::*;
use graphina::core::types::*;

/// The last answer, as the library gave it.
enum Given {
    Nothing,
    Distances(NodeMap<Option<i64>>),
    Traced(PathFindResult),
    Path(Option<(i64, Vec<NodeId>)>),
    Matrix(NodeMap<NodeMap<Option<i64>>>),
    Hops(Vec<NodeId>, Vec<Vec<Option<u32>>>),
}

/// One map as the library's graphs, one for each kind of cost.
struct Graphina<Ty: GraphConstructor<(), i64> + GraphConstructor<(), f64>> {
    whole: BaseGraph<(), i64, Ty>,
    real: BaseGraph<(), f64, Ty>,
    nodes: Vec<NodeId>,
    given: Given,
}

/// The graphs of a map, directed or undirected.
pub fn build(map: &Map) -> Box<dyn Rival> {
    if map.directed != 0 {
        Box::new(Graphina::<Directed>::new(map))
    } else {
        Box::new(Graphina::<Undirected>::new(map))
    }
}

impl<Ty: GraphConstructor<(), i64> + GraphConstructor<(), f64>> Graphina<Ty> {
    /// Every index a node, every link an edge.
    fn new(map: &Map) -> Self {
        let mut whole = BaseGraph::new();
        let mut real = BaseGraph::new();
        let nodes: Vec<NodeId> = (0..map.bound).map(|_| whole.add_node(())).collect();
        (0..map.bound).for_each(|_| {
            real.add_node(());
        });
        for (u, v, cost, length) in map.links() {
            whole.add_edge(nodes[u], nodes[v], cost);
            real.add_edge(nodes[u], nodes[v], length);
        }
        Graphina {
            whole,
            real,
            nodes,
            given: Given::Nothing,
        }
    }
}

impl<Ty: GraphConstructor<(), i64> + GraphConstructor<(), f64>> Rival for Graphina<Ty>
where
    BaseGraph<(), f64, Ty>: GraphinaGraph<(), f64>,
{
    fn ask(&mut self, query: &Query) -> bool {
        let source = self.nodes[query.source];
        self.given = match query.question {
            Question::Dijkstra => Given::Distances(dijkstra(&self.whole, source).unwrap()),
            Question::AStar => {
                let target = self.nodes[query.target];
                Given::Path(
                    a_star(&self.whole, source, target, |u| query.guess(u.index())).unwrap(),
                )
            }
            Question::F64 => Given::Traced(dijkstra_path_f64(&self.real, source, None).unwrap()),
            Question::F64Cutoff => {
                Given::Traced(dijkstra_path_f64(&self.real, source, Some(query.cutoff)).unwrap())
            }
            Question::BellmanFord => Given::Distances(bellman_ford(&self.whole, source).unwrap()),
            Question::FloydWarshall => Given::Matrix(floyd_warshall(&self.whole).unwrap()),
            Question::Johnson => Given::Matrix(johnson(&self.whole).unwrap()),
            Question::Hops => {
                let (nodes, matrix) = all_pairs_shortest_path_length(&self.whole);
                Given::Hops(nodes, matrix)
            }
            _ => return false,
        };
        true
    }

    fn tell(&mut self, _: &Query, answer: &mut Answer) {
        let m = self.nodes.len();
        match std::mem::replace(&mut self.given, Given::Nothing) {
            Given::Nothing => {}
            Given::Distances(all) => {
                let out = answer.whole(m);
                all.iter()
                    .for_each(|(v, d)| out[v.index()] = d.unwrap_or(i64::MIN));
            }
            Given::Traced((distances, trace)) => {
                answer.length = 1;
                let (real, nodes) = answer.real(m);
                distances
                    .iter()
                    .for_each(|(v, d)| real[v.index()] = d.unwrap_or(-1.0));
                trace
                    .iter()
                    .for_each(|(v, u)| nodes[v.index()] = u.map_or(u32::MAX, |u| u.index() as u32));
            }
            Given::Path(path) => answer
                .path(path.map(|(cost, nodes)| (cost, nodes.iter().map(|u| u.index()).collect()))),
            Given::Matrix(all) => {
                let out = answer.whole(m * m);
                for (u, row) in &all {
                    row.iter()
                        .for_each(|(v, d)| out[u.index() * m + v.index()] = d.unwrap_or(i64::MIN));
                }
            }
            Given::Hops(nodes, matrix) => {
                let out = answer.whole(m * m);
                for (u, row) in nodes.iter().zip(&matrix) {
                    for (v, hops) in nodes.iter().zip(row) {
                        out[u.index() * m + v.index()] = hops.map_or(i64::MIN, |h| h as i64);
                    }
                }
            }
        }
    }
}
