//! Each method: answers, refusals, links sent again, credits, loops below zero, cutoffs, absent indices, limits.

use dimetumble::{Map, MapF64, NotRemoved, Refusal, Workspace};

/// A map of these links.
fn map(bound: usize, directed: bool, links: &[(usize, usize, i32)]) -> Map {
    let mut map = Map::new(bound, directed).unwrap();
    for (from, to, cost) in links {
        map.put(*from, *to, *cost).unwrap();
    }
    map
}

/// The same of f64 links, all open.
fn map_f64(bound: usize, directed: bool, links: &[(usize, usize, f64)]) -> MapF64 {
    let mut map = MapF64::new(bound, directed).unwrap();
    for (from, to, cost) in links {
        map.put(*from, *to, *cost, true).unwrap();
    }
    map
}

/// The map of the request: a way round by a credit is the cheapest.
fn credit() -> Map {
    map(3, true, &[(0, 1, 5), (1, 2, -2), (0, 2, 4)])
}

#[test]
fn a_link_sent_again_replaces_its_cost() {
    let mut map = map(2, true, &[(1, 0, 7), (1, 0, 4)]);
    assert!(map.links().eq([(1, 0, 4)]));
    assert_eq!(map.len(), 1);
    map.put(0, 1, 9).unwrap();
    assert!(map.links().eq([(1, 0, 4), (0, 1, 9)]));
    let mut work = Workspace::new();
    assert_eq!(map.dijkstra(1, &mut work).unwrap().get(0), Some(4));
}

#[test]
fn an_undirected_link_is_the_same_from_either_end() {
    let map = map(2, false, &[(1, 0, 7), (0, 1, 4)]);
    assert!(map.links().eq([(1, 0, 4)]));
    let mut work = Workspace::new();
    assert!(map.floyd_warshall(&mut work).unwrap().row(0).unwrap().eq([Some(0), Some(4)]));
    assert!(map.floyd_warshall(&mut work).unwrap().row(1).unwrap().eq([Some(4), Some(0)]));
}

#[test]
fn an_f64_link_sent_again_replaces_cost_and_openness() {
    let mut map = map_f64(2, false, &[(0, 1, 2.5)]);
    map.put(1, 0, -0.0, false).unwrap();
    let all: Vec<_> = map.links().collect();
    assert_eq!(all.len(), 1);
    assert_eq!((all[0].0, all[0].1, all[0].2.to_bits(), all[0].3), (0, 1, (-0.0f64).to_bits(), false));
    let nan = f64::from_bits(0xfff8_0000_0000_1234);
    map.put(0, 1, nan, true).unwrap();
    assert_eq!(map.links().next().unwrap().2.to_bits(), nan.to_bits());
}

#[test]
fn put_refuses_ends_that_the_map_has_not() {
    let mut map = Map::new(3, true).unwrap();
    map.remove(1).unwrap();
    for (from, to) in [(0, 3), (3, 0), (0, 1), (1, 0), (0, 65_536), (65_536, 0), (usize::MAX, 0)] {
        assert_eq!(map.put(from, to, 1), Err(Refusal::BadLink));
    }
    assert!(map.is_empty());
    let mut map = MapF64::new(3, true).unwrap();
    assert_eq!(map.put(0, 3, 1.0, true), Err(Refusal::BadLink));
    assert_eq!(map.put(70_000, 0, 1.0, true), Err(Refusal::BadLink));
    assert!(map.is_empty());
}

#[test]
fn the_limits_are_those_of_a_map() {
    assert_eq!(Map::new(1025, true).err(), Some(Refusal::TooLarge));
    assert_eq!(MapF64::new(usize::MAX, false).err(), Some(Refusal::TooLarge));
    let mut map = Map::new(1024, true).unwrap();
    let mut map64 = MapF64::new(1024, true).unwrap();
    for i in 0..8192 {
        map.put(i % 1024, i / 1024, i as i32).unwrap();
        map64.put(i % 1024, i / 1024, i as f64, true).unwrap();
    }
    assert_eq!((map.len(), map64.len()), (8192, 8192));
    assert_eq!(map.put(1023, 1023, 1), Err(Refusal::Full));
    assert_eq!(map64.put(1023, 1023, 1.0, true), Err(Refusal::Full));
    map.put(1023, 7, -1).unwrap();
    map64.put(1023, 7, 0.0, false).unwrap();
    assert_eq!((map.len(), map64.len()), (8192, 8192));
    assert_eq!(map.links().last(), Some((1023, 7, -1)));
    let mut work = Workspace::new();
    assert_eq!(map.bellman_ford(1023, &mut work).unwrap().get(7), Some(-1));
    assert_eq!(map64.dijkstra_path_f64(0, None, &mut work).unwrap().distance(0), Some(0.0));
}

#[test]
fn an_index_with_links_stays() {
    let mut map = map(4, false, &[(0, 2, 1)]);
    assert_eq!(map.remove(4), Err(NotRemoved::OutOfBound));
    assert_eq!(map.remove(0), Err(NotRemoved::HasLinks));
    assert_eq!(map.remove(2), Err(NotRemoved::HasLinks));
    assert!(map.present().eq([0, 1, 2, 3]));
    assert_eq!(map.remove(1), Ok(()));
    assert_eq!(map.remove(1), Ok(()));
    assert!(map.present().eq([0, 2, 3]));
    assert!(map.is_present(3) && !map.is_present(1) && !map.is_present(4));
}

#[test]
fn dijkstra_gives_least_totals() {
    let mut map = map(5, true, &[(0, 1, 4), (0, 2, 1), (2, 1, 2)]);
    map.remove(3).unwrap();
    let mut work = Workspace::new();
    let dist = map.dijkstra(0, &mut work).unwrap();
    assert!(dist.iter().eq([Some(0), Some(3), Some(1), None, None]));
    assert_eq!(dist.get(5), None);
    assert_eq!(map.dijkstra(3, &mut work).err(), Some(Refusal::NoSource));
    assert_eq!(map.dijkstra(5, &mut work).err(), Some(Refusal::NoSource));
    assert_eq!(map.dijkstra(usize::MAX, &mut work).err(), Some(Refusal::NoSource));
}

#[test]
fn dijkstra_refuses_credits_in_reach_alone() {
    let map = credit();
    let mut work = Workspace::new();
    assert_eq!(map.dijkstra(0, &mut work).err(), Some(Refusal::BadCost));
    assert!(map.dijkstra(2, &mut work).unwrap().iter().eq([None, None, Some(0)]));
}

#[test]
fn bellman_ford_takes_credits() {
    let map = credit();
    let mut work = Workspace::new();
    assert!(map.bellman_ford(0, &mut work).unwrap().iter().eq([Some(0), Some(5), Some(3)]));
    assert!(map.bellman_ford(3, &mut work).unwrap().iter().eq([None, None, None]));
}

#[test]
fn loops_below_zero_are_refused() {
    let mut work = Workspace::new();
    let own = map(1, true, &[(0, 0, -1)]);
    assert_eq!(own.dijkstra(0, &mut work).err(), Some(Refusal::BadCost));
    assert_eq!(own.bellman_ford(0, &mut work).err(), Some(Refusal::NegativeLoop));
    assert_eq!(own.floyd_warshall(&mut work).err(), Some(Refusal::NegativeLoop));
    assert_eq!(own.johnson(&mut work).err(), Some(Refusal::NegativeLoop));
    // there and back over one link
    let both = map(2, false, &[(0, 1, -1)]);
    assert_eq!(both.bellman_ford(0, &mut work).err(), Some(Refusal::NegativeLoop));
    // out of reach of the source, but in the map
    let apart = map(4, true, &[(0, 1, 2), (2, 3, -1), (3, 2, 0)]);
    assert!(apart.bellman_ford(0, &mut work).unwrap().iter().eq([Some(0), Some(2), None, None]));
    assert_eq!(apart.johnson(&mut work).err(), Some(Refusal::NegativeLoop));
    assert_eq!(apart.floyd_warshall(&mut work).err(), Some(Refusal::NegativeLoop));
}

#[test]
fn a_star_goes_by_its_heuristic() {
    let map = map(4, true, &[(0, 2, 10), (0, 1, 1), (1, 2, 1)]);
    let mut work = Workspace::new();
    let path = map.a_star(0, 2, |v| [0, 1, -100, 0][v], &mut work).unwrap().unwrap();
    assert_eq!(path.cost(), 10);
    assert!(path.nodes().eq([0, 2]));
    let path = map.a_star(0, 2, |v| [0, 1, 0, 0][v], &mut work).unwrap().unwrap();
    assert_eq!(path.cost(), 2);
    assert!(path.nodes().eq([0, 1, 2]));
    let path = map.a_star(1, 1, |_| 0, &mut work).unwrap().unwrap();
    assert_eq!(path.cost(), 0);
    assert!(path.nodes().eq([1]));
    assert!(map.a_star(0, 3, |_| 0, &mut work).unwrap().is_none());
}

#[test]
fn a_star_refuses() {
    let mut map = map(4, true, &[(0, 1, 1), (1, 2, -1)]);
    map.remove(3).unwrap();
    let mut work = Workspace::new();
    assert_eq!(map.a_star(3, 0, |_| 0, &mut work).err(), Some(Refusal::NoSource));
    assert_eq!(map.a_star(0, 3, |_| 0, &mut work).err(), Some(Refusal::NoTarget));
    assert_eq!(map.a_star(3, 3, |_| 0, &mut work).err(), Some(Refusal::NoSource));
    assert_eq!(map.a_star(0, 2, |_| 0, &mut work).err(), Some(Refusal::BadCost));
    let end = 1 << 42;
    assert!(map.a_star(0, 0, |_| end, &mut work).unwrap().is_some());
    assert!(map.a_star(0, 0, |_| -end, &mut work).unwrap().is_some());
    assert_eq!(
        map.a_star(0, 0, |v| if v == 2 { end + 1 } else { 0 }, &mut work).err(),
        Some(Refusal::BadHeuristic)
    );
    assert_eq!(
        map.a_star(0, 0, |v| if v == 2 { -end - 1 } else { 0 }, &mut work).err(),
        Some(Refusal::BadHeuristic)
    );
    // an absent index is not asked
    map.a_star(0, 0, |v| if v == 3 { panic!("index 3 is absent") } else { 0 }, &mut work)
        .unwrap();
}

#[test]
fn matrices_have_the_present_indices() {
    let mut map = map(4, true, &[(0, 2, 4), (2, 3, -3), (0, 3, 2)]);
    map.remove(1).unwrap();
    let mut work = Workspace::new();
    for question in [Map::floyd_warshall, Map::johnson] {
        let matrix = question(&map, &mut work).unwrap();
        assert!(matrix.nodes().eq([0, 2, 3]));
        assert!(matrix.row(0).unwrap().eq([Some(0), Some(4), Some(1)]));
        assert!(matrix.row(2).unwrap().eq([None, Some(0), Some(-3)]));
        assert!(matrix.row(3).unwrap().eq([None, None, Some(0)]));
        assert!(matrix.row(1).is_none() && matrix.row(4).is_none());
        assert_eq!(matrix.get(0, 3), Some(1));
        assert_eq!(
            (matrix.get(3, 0), matrix.get(1, 0), matrix.get(0, 1), matrix.get(0, usize::MAX)),
            (None, None, None, None)
        );
    }
}

#[test]
fn hops_count_arcs() {
    let mut map = map(4, true, &[(0, 2, -100), (2, 3, 5)]);
    map.remove(1).unwrap();
    let mut work = Workspace::new();
    let hops = map.hops(&mut work).unwrap();
    assert!(hops.nodes().eq([0, 2, 3]));
    assert!(hops.row(0).unwrap().eq([Some(0), Some(1), Some(2)]));
    assert!(hops.row(3).unwrap().eq([None, None, Some(0)]));
    // closed links count, bad costs do not matter
    let mut map = MapF64::new(3, false).unwrap();
    map.put(0, 1, -1.0, false).unwrap();
    map.put(2, 1, f64::NAN, true).unwrap();
    let hops = map.hops(&mut work).unwrap();
    assert_eq!((hops.get(0, 2), hops.get(1, 0), hops.get(2, 2)), (Some(2), Some(1), Some(0)));
}

#[test]
fn a_map_without_indices_has_answers_too() {
    let map = Map::new(0, true).unwrap();
    let mut work = Workspace::new();
    assert_eq!(map.floyd_warshall(&mut work).unwrap().nodes().len(), 0);
    assert_eq!(map.johnson(&mut work).unwrap().nodes().len(), 0);
    assert_eq!(map.hops(&mut work).unwrap().nodes().len(), 0);
    assert_eq!(map.bellman_ford(0, &mut work).unwrap().iter().len(), 0);
    assert_eq!(map.dijkstra(0, &mut work).err(), Some(Refusal::NoSource));
    let map = MapF64::new(0, true).unwrap();
    assert_eq!(map.hops(&mut work).unwrap().nodes().len(), 0);
    assert_eq!(map.dijkstra_path_f64(0, None, &mut work).err(), Some(Refusal::NoSource));
}

#[test]
fn f64_distances_and_predecessors() {
    let mut map = map_f64(5, true, &[(0, 1, 0.5), (1, 2, 1.5), (0, 2, 3.0), (2, 3, f64::INFINITY)]);
    map.put(0, 4, 0.25, false).unwrap();
    let mut work = Workspace::new();
    for question in [MapF64::dijkstra_path_f64, MapF64::dijkstra_path_impl] {
        let all = question(&map, 0, None, &mut work).unwrap();
        let wanted = [
            (Some(0.0), None),
            (Some(0.5), Some(0)),
            (Some(2.0), Some(1)),
            (Some(f64::INFINITY), Some(2)),
            (None, None),
        ];
        assert!(all.iter().eq(wanted));
        assert_eq!((all.distance(5), all.predecessor(5)), (None, None));
        assert_eq!(question(&map, 5, None, &mut work).err(), Some(Refusal::NoSource));
    }
}

#[test]
fn f64_cutoffs() {
    let map = map_f64(3, true, &[(0, 1, 0.5), (1, 2, 1.5)]);
    let mut work = Workspace::new();
    let reach = |cutoff: Option<f64>, work: &mut Workspace| {
        let all = map.dijkstra_path_f64(0, cutoff, work).unwrap();
        (0..3).filter(|v| all.distance(*v).is_some()).count()
    };
    assert_eq!(reach(Some(2.0), &mut work), 3);
    assert_eq!(reach(Some(f64::from_bits(2.0f64.to_bits() - 1)), &mut work), 2);
    assert_eq!(reach(Some(0.0), &mut work), 1);
    assert_eq!(reach(Some(-0.0), &mut work), 1);
    assert_eq!(reach(Some(-1.0), &mut work), 1);
    for open in [None, Some(f64::NAN), Some(-f64::NAN), Some(f64::INFINITY)] {
        assert_eq!(reach(open, &mut work), 3);
    }
}

#[test]
fn bad_f64_costs_are_refused_while_open() {
    let mut work = Workspace::new();
    for bad in [-0.0, -1.0, f64::NEG_INFINITY, f64::NAN, -f64::NAN] {
        let mut map = map_f64(3, true, &[(0, 1, 1.0), (1, 2, bad)]);
        assert_eq!(map.dijkstra_path_f64(0, None, &mut work).err(), Some(Refusal::BadCost));
        assert_eq!(map.dijkstra_path_impl(0, None, &mut work).err(), Some(Refusal::BadCost));
        // not looked at from behind, nor past a cutoff
        assert!(map.dijkstra_path_f64(2, None, &mut work).is_ok());
        assert!(map.dijkstra_path_f64(0, Some(0.5), &mut work).is_ok());
        map.put(1, 2, bad, false).unwrap();
        assert_eq!(map.dijkstra_path_f64(0, None, &mut work).unwrap().distance(1), Some(1.0));
    }
}

#[test]
fn the_page_check_finds_wrong_pages() {
    let map = credit();
    let mut work = Workspace::new();
    let right = [Some(0), Some(5), Some(3)];
    assert_eq!(map.page(0, |v| right[v], &mut work), Ok(true));
    for wrong in [Some(4), Some(2), None, Some(i64::MAX), Some(i64::MIN), Some(i64::MIN + 1)] {
        assert_eq!(map.page(0, |v| if v == 2 { wrong } else { right[v] }, &mut work), Ok(false));
    }
    assert_eq!(map.page(0, |v| if v == 0 { Some(1) } else { right[v] }, &mut work), Ok(false));
    assert_eq!(map.page(3, |v| right[v], &mut work), Err(Refusal::NoSource));
    // at an absent index everything but none is wrong
    let mut wide = Map::new(4, true).unwrap();
    for (from, to, cost) in map.links() {
        wide.put(from, to, cost).unwrap();
    }
    wide.remove(3).unwrap();
    assert_eq!(wide.page(0, |v| right.get(v).copied().flatten(), &mut work), Ok(true));
    assert_eq!(wide.page(0, |v| Some([0, 5, 3, 0][v]), &mut work), Ok(false));
    // -2^63 is a distance and not none, where none would be right
    let apart = self::map(2, true, &[]);
    assert_eq!(apart.page(0, |v| [Some(0), None][v], &mut work), Ok(true));
    assert_eq!(apart.page(0, |v| [Some(0), Some(i64::MIN)][v], &mut work), Ok(false));
}

#[test]
fn numbers_and_words_of_refusals() {
    let all = [
        Refusal::TooLarge,
        Refusal::BadLink,
        Refusal::NoSource,
        Refusal::NoTarget,
        Refusal::BadHeuristic,
        Refusal::BadCost,
        Refusal::NegativeLoop,
        Refusal::Full,
    ];
    for (i, refusal) in all.into_iter().enumerate() {
        assert_eq!(refusal.number(), i + 1);
        assert!(!refusal.to_string().is_empty());
    }
}

#[test]
fn threads_share_a_map() {
    let map = credit();
    std::thread::scope(|scope| {
        let asked: Vec<_> = (0..3)
            .map(|source| {
                let map = &map;
                scope.spawn(move || map.bellman_ford(source, &mut Workspace::new()).unwrap().get(2))
            })
            .collect();
        let answers: Vec<_> = asked.into_iter().map(|t| t.join().unwrap()).collect();
        assert_eq!(answers, [Some(3), Some(-2), Some(0)]);
    });
}

// ---- random maps against rounds over all arcs, written plainly here

/// Numbers that look random, the same in every run.
struct Dice(u64);

impl Dice {
    fn below(&mut self, n: usize) -> usize {
        self.0 = self.0.wrapping_mul(6364136223846793005).wrapping_add(1442695040888963407);
        ((self.0 >> 33) as usize) % n
    }
}

/// The least totals from a source by rounds over all arcs, or nothing where costs loop below zero in its reach.
fn plainly(map: &Map, source: usize) -> Option<Vec<Option<i64>>> {
    let mut arcs = Vec::new();
    for (from, to, cost) in map.links() {
        arcs.push((from, to, i64::from(cost)));
        if !map.is_directed() {
            arcs.push((to, from, i64::from(cost)));
        }
    }
    let mut dist = vec![None; map.bound()];
    if map.is_present(source) {
        dist[source] = Some(0);
    }
    for _ in 0..=map.bound() {
        let before = dist.clone();
        for (from, to, cost) in &arcs {
            if let Some(d) = dist[*from] {
                if !matches!(dist[*to], Some(e) if e <= d + cost) {
                    dist[*to] = Some(d + cost);
                }
            }
        }
        if dist == before {
            return Some(dist);
        }
    }
    None
}

#[test]
fn random_maps_agree() {
    let mut dice = Dice(7);
    let mut work = Workspace::new();
    let (mut loops, mut credits, mut plain) = (0, 0, 0);
    for turn in 0..2000 {
        let bound = 1 + dice.below(8);
        let lowest = [-2, -1, 0, 0][turn % 4];
        let mut map = Map::new(bound, dice.below(3) != 0).unwrap();
        for v in 0..bound {
            if dice.below(6) == 0 {
                map.remove(v).unwrap();
            }
        }
        for _ in 0..dice.below(16) {
            let (from, to, cost) = (dice.below(bound), dice.below(bound), dice.below(10) as i32 + lowest);
            assert_eq!(map.put(from, to, cost).is_ok(), map.is_present(from) && map.is_present(to));
        }
        let mut doubles = MapF64::new(bound, map.is_directed()).unwrap();
        for v in 0..bound {
            if !map.is_present(v) {
                doubles.remove(v).unwrap();
            }
        }
        for (from, to, cost) in map.links() {
            doubles.put(from, to, cost.into(), true).unwrap();
        }

        let wanted: Vec<_> = (0..bound).map(|s| plainly(&map, s)).collect();
        for (source, wanted) in wanted.iter().enumerate() {
            // bellman_ford, and the page check on what it gives
            match (map.bellman_ford(source, &mut work), wanted) {
                (Ok(dist), Some(wanted)) => {
                    assert!(dist.iter().eq(wanted.iter().copied()));
                    if map.is_present(source) {
                        assert_eq!(map.page(source, |v| wanted[v], &mut work), Ok(true));
                    }
                }
                (Err(Refusal::NegativeLoop), None) => loops += 1,
                (got, wanted) => panic!("{got:?} and not {wanted:?}"),
            }
            if !map.is_present(source) {
                continue;
            }
            // dijkstra, a_star without a heuristic, and the f64 search, where no cost is below zero
            let bad = map.links().any(|(_, _, cost)| cost < 0);
            if bad {
                credits += 1;
                continue;
            }
            plain += 1;
            let wanted = wanted.as_ref().unwrap();
            assert!(map.dijkstra(source, &mut work).unwrap().iter().eq(wanted.iter().copied()));
            for target in map.present() {
                let path = map.a_star(source, target, |_| 0, &mut work).unwrap();
                assert_eq!(path.map(|p| p.cost()), wanted[target]);
            }
            let all = doubles.dijkstra_path_f64(source, None, &mut work).unwrap();
            for (v, wanted) in wanted.iter().enumerate() {
                assert_eq!(all.distance(v), wanted.map(|d| d as f64));
            }
        }
        // the matrices
        for question in [Map::floyd_warshall, Map::johnson] {
            match question(&map, &mut work) {
                Ok(matrix) => {
                    assert!(matrix.nodes().eq(map.present()));
                    for from in map.present() {
                        let row = wanted[from].as_ref().unwrap();
                        assert!(map.present().all(|to| matrix.get(from, to) == row[to]));
                    }
                }
                Err(refusal) => {
                    assert_eq!(refusal, Refusal::NegativeLoop);
                    assert!(wanted.iter().any(|w| w.is_none()));
                }
            }
        }
        // hops are totals of arcs that cost 1 each
        let mut ones = map.clone();
        for (from, to, _) in map.links() {
            ones.put(from, to, 1).unwrap();
        }
        let steps: Vec<_> = (0..bound).map(|s| plainly(&ones, s).unwrap()).collect();
        let hops = map.hops(&mut work).unwrap();
        for from in map.present() {
            assert!(hops
                .row(from)
                .unwrap()
                .map(|h| h.map(i64::from))
                .eq(map.present().map(|to| steps[from][to])));
        }
        let hops = doubles.hops(&mut work).unwrap();
        for from in map.present() {
            assert!(hops
                .row(from)
                .unwrap()
                .map(|h| h.map(i64::from))
                .eq(map.present().map(|to| steps[from][to])));
        }
    }
    // each kind was there
    assert!(loops > 100 && credits > 100 && plain > 100, "{loops} {credits} {plain}");
}
