//! Looks for a shortest circle among edges. The library says whether there is one.
use nidskalm::{Edge, EntrySet};
use std::collections::{BTreeMap, BTreeSet, VecDeque};

type Graph = BTreeMap<EntrySet, Vec<EntrySet>>;

/// The chunks of a shortest closed walk, each once, from its smallest set on; nothing where there is none.
pub fn shortest(edges: &[Edge]) -> Vec<EntrySet> {
    let mut graph = Graph::new();
    for edge in edges {
        graph.entry(edge.from).or_default().push(edge.to);
    }
    graph.keys().filter_map(|&start| back_to(&graph, start)).min_by_key(Vec::len).unwrap_or_default()
}

/// The chunks of a shortest walk from one back to itself, by going out from it step by step.
fn back_to(graph: &Graph, start: EntrySet) -> Option<Vec<EntrySet>> {
    let mut before = BTreeMap::new();
    let mut seen = BTreeSet::from([start]);
    let mut waiting = VecDeque::from([start]);
    while let Some(from) = waiting.pop_front() {
        for &to in graph.get(&from).into_iter().flatten() {
            if to == start {
                return Some(walk(&before, from));
            }
            if seen.insert(to) {
                before.insert(to, from);
                waiting.push_back(to);
            }
        }
    }
    None
}

/// From the start of a search to one of its chunks.
fn walk(before: &BTreeMap<EntrySet, EntrySet>, last: EntrySet) -> Vec<EntrySet> {
    let mut walk: Vec<EntrySet> = std::iter::successors(Some(last), |chunk| before.get(chunk).copied()).collect();
    walk.reverse();
    walk
}

#[cfg(test)]
mod tests {
    use super::shortest;
    use nidskalm::{Edge, EntrySet};

    fn circle(edges: &[(u64, u64)]) -> Vec<u64> {
        let edge = |&(from, to)| Edge { from: EntrySet::from(from), to: EntrySet::from(to), multiplicity: 1 };
        let edges: Vec<Edge> = edges.iter().map(edge).collect();
        shortest(&edges).into_iter().map(|set| set.words()[0]).collect()
    }

    #[test]
    fn the_shortest_circle_is_found() {
        assert_eq!(circle(&[]), []);
        assert_eq!(circle(&[(1, 2), (1, 3), (2, 3)]), []);
        assert_eq!(circle(&[(2, 1), (1, 2)]), [1, 2]);
        assert_eq!(circle(&[(1, 2), (2, 3), (3, 1), (3, 4), (4, 3)]), [3, 4], "not the one of three");
        assert_eq!(circle(&[(9, 5), (5, 7), (7, 6), (6, 5), (7, 8)]), [5, 7, 6], "not what leads there");
        assert_eq!(circle(&[(4, 3), (3, 4), (2, 1), (1, 2)]), [1, 2], "the smallest of two");
    }
}
