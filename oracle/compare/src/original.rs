//! The original's answers: graphina's functions, unchanged, with i64 weights made from 32-bit ones.
use crate::lent::{Ask, Lent, Link, Outcome};
use crate::model::{MINUS_ONE, NONE_I64, NONE_U32};
use graphina::core::error::GraphinaError;
use graphina::core::paths;
use graphina::core::types::{BaseGraph, Directed, GraphConstructor, GraphinaGraph, NodeId, NodeMap, Undirected};
use petgraph::graph::NodeIndex;
use std::panic::{catch_unwind, AssertUnwindSafe};

/// What a sum says that overflows.
pub const OVERFLOW: &str = "attempt to add with overflow";

/// A cost with its open mark, as the original's closure sees a link of an f64 map.
#[derive(Clone, Copy, Debug)]
pub struct Marked {
    bits: u64,
    open: u8,
}

/// The original's graph for a map: of either direction, and of either kind; for f64 maps also the graph of the open links alone.
pub enum Original {
    Directed(BaseGraph<u32, i64, Directed>),
    Undirected(BaseGraph<u32, i64, Undirected>),
    DirectedF64(BaseGraph<u32, Marked, Directed>, BaseGraph<u32, f64, Directed>),
    UndirectedF64(BaseGraph<u32, Marked, Undirected>, BaseGraph<u32, f64, Undirected>),
}

fn id(i: usize) -> NodeId {
    NodeId::new(NodeIndex::new(i))
}

/// A graph with the map's present indices, fed with these records.
fn fed<W, Ty: GraphConstructor<u32, W>>(lent: &Lent, records: &[Link], weight: impl Fn(&Link) -> W) -> BaseGraph<u32, W, Ty> {
    let mut graph = BaseGraph::new();
    for i in 0..lent.bound {
        graph.add_node(i as u32);
    }
    for i in (0..lent.bound).filter(|&i| !lent.is_present(i)) {
        graph.remove_node(id(i));
    }
    for l in records {
        graph.add_edge(id(l.a), id(l.b), weight(l));
    }
    graph
}

/// The graph's links in their places.
fn table<W, Ty: GraphConstructor<u32, W>>(graph: &BaseGraph<u32, W, Ty>, link: impl Fn(&W) -> (u64, u64)) -> Vec<Link> {
    graph
        .edges()
        .map(|(a, b, w)| {
            let (cost, open) = link(w);
            Link {
                a: a.index(),
                b: b.index(),
                cost,
                open,
            }
        })
        .collect()
}

impl Original {
    /// The graph that the original makes of a feed. The links of the last table that are open feed the second f64 graph.
    pub fn new(lent: &Lent, feed: &[Link]) -> Original {
        let whole = |l: &Link| l.cost as i64;
        let marked = |l: &Link| Marked {
            bits: l.cost,
            open: l.open as u8,
        };
        let float = |l: &Link| f64::from_bits(l.cost);
        let open: Vec<Link> = if lent.is_f64() {
            lent.links().into_iter().filter(|l| l.open != 0).collect()
        } else {
            vec![]
        };
        match (lent.is_f64(), lent.directed != 0) {
            (false, true) => Original::Directed(fed(lent, feed, whole)),
            (false, false) => Original::Undirected(fed(lent, feed, whole)),
            (true, true) => Original::DirectedF64(fed(lent, feed, marked), fed(lent, &open, float)),
            (true, false) => Original::UndirectedF64(fed(lent, feed, marked), fed(lent, &open, float)),
        }
    }

    /// The links that the feed left, place by place.
    pub fn links(&self) -> Vec<Link> {
        let whole = |w: &i64| (*w as u64, 1);
        let marked = |w: &Marked| (w.bits, w.open as u64);
        match self {
            Original::Directed(g) => table(g, whole),
            Original::Undirected(g) => table(g, whole),
            Original::DirectedF64(g, _) => table(g, marked),
            Original::UndirectedF64(g, _) => table(g, marked),
        }
    }

    /// Its answer. It is built with overflow checks; a panic of another cause counts as an answer that nothing equals.
    pub fn ask(&self, lent: &Lent, ask: &Ask) -> Reply {
        let found = catch_unwind(AssertUnwindSafe(|| match self {
            Original::Directed(g) => whole(g, lent, ask),
            Original::Undirected(g) => whole(g, lent, ask),
            Original::DirectedF64(g, open) => floats(g, open, lent, ask),
            Original::UndirectedF64(g, open) => floats(g, open, lent, ask),
        }));
        match found {
            Ok(Some(outcome)) => Reply::Gives(outcome),
            Ok(None) => Reply::HasNoSuchQuestion,
            Err(cause) => {
                let text = cause.downcast_ref::<&str>().copied().unwrap_or("");
                if text == OVERFLOW && matches!(ask, Ask::FloydWarshall) {
                    Reply::Overflows
                } else {
                    Reply::Gives(Outcome {
                        number: usize::MAX,
                        values: vec![],
                        outputs: vec![],
                    })
                }
            }
        }
    }
}

/// What the original does with a question.
pub enum Reply {
    Gives(Outcome),
    HasNoSuchQuestion,
    Overflows,
}

fn done(values: Vec<u64>, outputs: Vec<Vec<u64>>) -> Option<Outcome> {
    Some(Outcome { number: 0, values, outputs })
}

fn refused(number: usize, values: Vec<u64>) -> Option<Outcome> {
    Some(Outcome {
        number,
        values,
        outputs: vec![],
    })
}

/// The number of an error: 6 for a cost, 3 and 4 for a node by the word of the message.
fn number(error: &GraphinaError) -> usize {
    match error {
        GraphinaError::InvalidArgument(_) => 6,
        GraphinaError::NodeNotFound(text) if text.contains("target") => 4,
        GraphinaError::NodeNotFound(_) => 3,
        other => panic!("an error that should not occur: {other}"),
    }
}

fn by_index<T>(lent: &Lent, map: &NodeMap<Option<T>>, none: u64, show: impl Fn(&T) -> u64) -> Vec<u64> {
    let present = lent.nodes().len();
    assert!(map.len() == present, "a node map has {} entries, not {present}", map.len());
    (0..lent.bound)
        .map(|i| map.get(&id(i)).and_then(|x| x.as_ref()).map_or(none, &show))
        .collect()
}

fn matrix(lent: &Lent, map: &NodeMap<NodeMap<Option<i64>>>) -> Vec<u64> {
    let nodes = lent.nodes();
    assert!(map.len() == nodes.len());
    nodes
        .iter()
        .flat_map(|&u| nodes.iter().map(move |&v| map[&id(u)][&id(v)].map_or(NONE_I64, |d| d as u64)))
        .collect()
}

fn hops<W: Copy, Ty: GraphConstructor<u32, W>>(graph: &BaseGraph<u32, W, Ty>) -> Option<Outcome> {
    let (nodes, rows) = paths::all_pairs_shortest_path_length(graph);
    let cells = rows.iter().flatten().map(|d| d.map_or(NONE_U32, u64::from)).collect();
    done(vec![nodes.len() as u64], vec![nodes.iter().map(|u| u.index() as u64).collect(), cells])
}

fn whole<Ty: GraphConstructor<u32, i64>>(graph: &BaseGraph<u32, i64, Ty>, lent: &Lent, ask: &Ask) -> Option<Outcome> {
    let show = |d: &i64| *d as u64;
    match ask {
        Ask::Dijkstra { source } => match paths::dijkstra(graph, id(*source)) {
            Ok(map) => done(vec![], vec![by_index(lent, &map, NONE_I64, show)]),
            Err(e) => refused(number(&e), vec![]),
        },
        Ask::BellmanFord { source } => match paths::bellman_ford(graph, id(*source)) {
            Some(map) => done(vec![], vec![by_index(lent, &map, NONE_I64, show)]),
            None => refused(7, vec![]),
        },
        Ask::AStar { source, target, guess } => {
            let found = paths::a_star(graph, id(*source), id(*target), |u| guess.get(u.index()) as i64);
            match found {
                Ok(Some((cost, nodes))) => {
                    let mut path: Vec<u64> = nodes.iter().map(|u| u.index() as u64).collect();
                    path.resize(lent.bound, NONE_U32);
                    done(vec![cost as u64, nodes.len() as u64], vec![path])
                }
                Ok(None) => done(vec![NONE_I64, 0], vec![vec![NONE_U32; lent.bound]]),
                Err(e) => refused(number(&e), vec![NONE_I64, 0]),
            }
        }
        Ask::FloydWarshall => match paths::floyd_warshall(graph) {
            Some(map) => done(vec![], vec![matrix(lent, &map)]),
            None => refused(7, vec![]),
        },
        Ask::Johnson => match paths::johnson(graph) {
            Some(map) => done(vec![], vec![matrix(lent, &map)]),
            None => refused(7, vec![]),
        },
        Ask::Hops => hops(graph),
        _ => None,
    }
}

fn floats<Ty>(graph: &BaseGraph<u32, Marked, Ty>, open: &BaseGraph<u32, f64, Ty>, lent: &Lent, ask: &Ask) -> Option<Outcome>
where
    Ty: GraphConstructor<u32, Marked> + GraphConstructor<u32, f64>,
    BaseGraph<u32, Marked, Ty>: GraphinaGraph<u32, Marked>,
    BaseGraph<u32, f64, Ty>: GraphinaGraph<u32, f64>,
{
    let found = match ask {
        Ask::PathImpl { source, cutoff } => paths::dijkstra_path_impl(graph, id(*source), *cutoff, |w| (w.open != 0).then(|| f64::from_bits(w.bits))),
        Ask::PathF64 { source, cutoff } => paths::dijkstra_path_f64(open, id(*source), *cutoff),
        Ask::HopsF64 => return hops(graph),
        _ => return None,
    };
    match found {
        Ok((dist, pred)) => done(
            vec![],
            vec![
                by_index(lent, &dist, MINUS_ONE, |d| d.to_bits()),
                by_index(lent, &pred, NONE_U32, |u| u.index() as u64),
            ],
        ),
        Err(e) => refused(number(&e), vec![]),
    }
}
