//! The move graph by documents 01 and 02, worked out plainly: every answer is recounted from the load and the placement.
use std::collections::{BTreeMap, BTreeSet};

use crate::layout::MoveLayout;
use crate::library::{EdgeReply, MoveReply, Reply, SetReply};
use crate::sets::{Set, lent_set, width};

pub const NONE: u32 = u32::MAX;

/// The lent load, right or wrong.
#[derive(Clone, Debug, PartialEq, Eq)]
pub struct Load {
    pub a: u64,
    pub d: u64,
    pub e: u64,
    pub n: u64,
    pub starts: Vec<u32>,
    pub dependencies: Vec<u32>,
    pub hosts: Vec<u32>,
    /// A mark for each atom, "nonzero for fixed".
    pub fixed: Vec<u32>,
}

impl Load {
    pub fn layout(&self) -> MoveLayout {
        MoveLayout { a: self.a as usize, d: self.d as usize, e: self.e as usize, n: self.n as usize }
    }

    /// "No marks set": so the original is compared.
    pub fn unmarked(&self) -> bool {
        self.fixed.iter().all(|&mark| mark == 0)
    }

    /// Dependencies of one atom.
    pub fn of(&self, atom: usize) -> &[u32] {
        &self.dependencies[self.starts[atom] as usize..self.starts[atom + 1] as usize]
    }
}

/// Rows 1 to 6, and 7 and 8 where entry sets are lent; 0 if none fits.
pub fn load_refusal(load: &Load, sets: Option<&[u64]>, area: usize) -> u64 {
    if load.a > 512 || load.d > 8192 || load.e > 256 || load.n < load.a + 1 || load.n > 1024 {
        return 1;
    }
    let (a, d, e) = (load.a as usize, load.d as usize, load.e as usize);
    let w = width(load.e) as usize;
    if load.starts.len() != a + 1 || load.dependencies.len() != d || load.hosts.len() != e || load.fixed.len() != a {
        return 2;
    }
    if sets.is_some_and(|sets| sets.len() != a * w) {
        return 2;
    }
    if area < load.layout().length() {
        return 3;
    }
    if load.starts[0] != 0 || load.starts.windows(2).any(|pair| pair[0] > pair[1]) || load.starts[a] as usize != d {
        return 4;
    }
    if (0..a).any(|atom| load.of(atom).iter().any(|&other| other as usize >= a || other as usize == atom)) {
        return 5;
    }
    if load.hosts.iter().any(|&host| host != NONE && host as usize >= a) {
        return 6;
    }
    let Some(sets) = sets else { return 0 };
    if entry_sets(sets, a, w).iter().any(|set| !set.below(load.e)) {
        return 7;
    }
    let distinct: BTreeSet<Set> = entry_sets(sets, a, w).into_iter().collect();
    if distinct.len() != a { 8 } else { 0 }
}

pub fn entry_sets(sets: &[u64], a: usize, w: usize) -> Vec<Set> {
    (0..a).map(|atom| Set::from_words(&sets[atom * w..(atom + 1) * w])).collect()
}

/// Multiplicity of every edge under a placement.
pub fn multiplicities(load: &Load, place: &[Set]) -> BTreeMap<(Set, Set), u32> {
    let mut edges = BTreeMap::new();
    let mut count = |from: Set, to: Set| {
        if from != to {
            *edges.entry((from, to)).or_insert(0) += 1;
        }
    };
    for (atom, &set) in place.iter().enumerate() {
        for &other in load.of(atom) {
            count(set, place[other as usize]);
        }
    }
    let occupied: BTreeSet<Set> = place.iter().copied().collect();
    for (bit, &host) in load.hosts.iter().enumerate() {
        if host != NONE && occupied.contains(&Set::single(bit)) {
            count(Set::single(bit), place[host as usize]);
        }
    }
    edges
}

/// How many distinct edges the second graph has that the first hasn't: "an edge in both counting as neither".
pub fn gained(before: &BTreeMap<(Set, Set), u32>, after: &BTreeMap<(Set, Set), u32>) -> u64 {
    after.keys().filter(|edge| !before.contains_key(edge)).count() as u64
}

/// The chunk graph of a placement.
pub struct Graph {
    pub edges: BTreeMap<(Set, Set), u32>,
    /// Occupied sets, rising.
    pub nodes: Vec<Set>,
    next: Vec<Vec<usize>>,
}

impl Graph {
    pub fn new(load: &Load, place: &[Set]) -> Self {
        let edges = multiplicities(load, place);
        let nodes: Vec<Set> = place.iter().copied().collect::<BTreeSet<_>>().into_iter().collect();
        let mut next = vec![vec![]; nodes.len()];
        for (from, to) in edges.keys() {
            next[nodes.binary_search(from).unwrap()].push(nodes.binary_search(to).unwrap());
        }
        Self { edges, nodes, next }
    }

    /// Takes nodes away that lead to none that is left; a closed walk keeps its nodes.
    pub fn cyclic(&self) -> bool {
        let mut before = vec![vec![]; self.nodes.len()];
        let mut ways: Vec<usize> = self.next.iter().map(Vec::len).collect();
        for (from, list) in self.next.iter().enumerate() {
            for &to in list {
                before[to].push(from);
            }
        }
        let mut free: Vec<usize> = (0..ways.len()).filter(|&node| ways[node] == 0).collect();
        let mut taken = 0;
        while let Some(node) = free.pop() {
            taken += 1;
            for &from in &before[node] {
                ways[from] -= 1;
                if ways[from] == 0 {
                    free.push(from);
                }
            }
        }
        taken < self.nodes.len()
    }

    /// Nodes that `node` reaches in one step or more.
    fn reach(&self, node: usize) -> Vec<bool> {
        let mut reached = vec![false; self.nodes.len()];
        let mut open = self.next[node].clone();
        while let Some(node) = open.pop() {
            if !std::mem::replace(&mut reached[node], true) {
                open.extend(&self.next[node]);
            }
        }
        reached
    }

    /// "A cycle is a closed walk of at least one edge": some node reaches itself.
    pub fn closed_walk(&self) -> bool {
        (0..self.nodes.len()).any(|node| self.reach(node)[node])
    }

    /// Sets that `set` reaches in one step or more.
    pub fn reached(&self, set: Set) -> BTreeSet<Set> {
        let reached = self.reach(self.nodes.binary_search(&set).unwrap());
        self.nodes.iter().zip(reached).filter_map(|(&set, yes)| yes.then_some(set)).collect()
    }

    /// "How many other chunks" the chunk reaches.
    pub fn others_reached(&self, chunk: Set) -> u64 {
        self.reached(chunk).iter().filter(|&&set| set != chunk).count() as u64
    }

    /// The stored component: the nodes on closed walks, if any two of them reach each other; else nobody.
    pub fn component(&self) -> BTreeSet<Set> {
        if !self.cyclic() {
            return BTreeSet::new();
        }
        let reach: Vec<Vec<bool>> = (0..self.nodes.len()).map(|node| self.reach(node)).collect();
        let on: Vec<usize> = (0..self.nodes.len()).filter(|&node| reach[node][node]).collect();
        if on.iter().any(|&x| on.iter().any(|&y| !reach[x][y])) {
            return BTreeSet::new();
        }
        on.into_iter().map(|node| self.nodes[node]).collect()
    }
}

/// "The number of occupied sets": of sets that some atom has.
fn occupied(place: &[Set]) -> u64 {
    place.iter().collect::<BTreeSet<_>>().len() as u64
}

/// What an accepted move from one graph to another reports, the atom's new chunk being `target`.
pub fn changes(before: &Graph, after: &Graph, target: Set) -> MoveReply {
    let (appeared, vanished) = (gained(&before.edges, &after.edges), gained(&after.edges, &before.edges));
    MoveReply::accepted(appeared, vanished, after.others_reached(target))
}

/// The ledger: each atom's set, and the registered sets in the order of registration.
#[derive(Clone, Debug, PartialEq, Eq)]
pub struct Ledger {
    pub place: Vec<Set>,
    pub registered: Vec<Set>,
}

/// How far a move went.
#[derive(Clone, Copy, Debug, PartialEq, Eq)]
pub enum Step {
    /// Refused, or rejected by step 1.
    Nothing,
    /// Moved on trial; `acyclic` says what the graph was before.
    Tried { acyclic: bool, accepted: bool },
}

impl Ledger {
    pub fn at_loading(sets: &[Set]) -> Self {
        Self { place: sets.to_vec(), registered: sets.to_vec() }
    }

    /// "When N sets are registered and another is needed, the smallest empty one, as a number, gives up its place."
    pub fn register(&mut self, load: &Load, target: Set) {
        if (self.registered.len() as u64) < load.n {
            self.registered.push(target);
            return;
        }
        let empty = self.registered.iter().filter(|set| !self.place.contains(set)).min();
        let gone = *empty.expect("N is above A");
        let place = self.registered.iter().position(|&set| set == gone).unwrap();
        self.registered[place] = target;
    }

    /// A move, after rows 1 to 9.
    pub fn try_move(&mut self, load: &Load, atom: u32, bits: &[u64]) -> (MoveReply, Step) {
        if u64::from(atom) >= load.a {
            return (MoveReply::refused(10), Step::Nothing);
        }
        if load.fixed[atom as usize] != 0 {
            return (MoveReply::refused(24), Step::Nothing);
        }
        let Some(target) = lent_set(bits, load.e) else { return (MoveReply::refused(11), Step::Nothing) };
        let atom = atom as usize;
        if target == self.place[atom] {
            return (MoveReply::refused(12), Step::Nothing);
        }
        let graph = Graph::new(load, &self.place);
        let acyclic = !graph.cyclic();
        if !acyclic && !graph.component().contains(&self.place[atom]) {
            return (MoveReply::rejected(), Step::Nothing);
        }
        if !self.registered.contains(&target) {
            self.register(load, target);
        }
        let mut moved = self.place.clone();
        moved[atom] = target;
        let after = Graph::new(load, &moved);
        if after.cyclic() {
            return (MoveReply::rejected(), Step::Tried { acyclic, accepted: false });
        }
        self.place = moved;
        (changes(&graph, &after, target), Step::Tried { acyclic, accepted: true })
    }

    pub fn atom_set(&self, load: &Load, atom: u32) -> SetReply {
        if u64::from(atom) >= load.a { SetReply::refused(10) } else { SetReply::set(self.place[atom as usize]) }
    }

    pub fn atom_count(&self, load: &Load, bits: &[u64]) -> Reply {
        let Some(set) = lent_set(bits, load.e) else { return Reply::refused(11) };
        Reply::value(self.place.iter().filter(|&&place| place == set).count() as u64)
    }

    pub fn multiplicity(&self, load: &Load, from: &[u64], to: &[u64]) -> Reply {
        let (Some(from), Some(to)) = (lent_set(from, load.e), lent_set(to, load.e)) else { return Reply::refused(11) };
        Reply::value(multiplicities(load, &self.place).get(&(from, to)).map_or(0, |&count| count.into()))
    }

    pub fn edge_count(&self, load: &Load) -> Reply {
        Reply::value(multiplicities(load, &self.place).len() as u64)
    }

    pub fn chunk_count(&self) -> Reply {
        Reply::value(occupied(&self.place))
    }

    pub fn edge_at(&self, load: &Load, k: u64) -> EdgeReply {
        let edges = multiplicities(load, &self.place);
        let edge = usize::try_from(k).ok().and_then(|k| edges.iter().nth(k));
        edge.map_or(EdgeReply::none(), |(&(from, to), &count)| EdgeReply::edge(from, to, count.into()))
    }

    pub fn has_cycle(&self, load: &Load) -> Reply {
        Reply::value(Graph::new(load, &self.place).closed_walk().into())
    }
}

/// The start order of document 02, (v).
impl Ledger {
    /// "the chunks whose set holds that bit, and all they reach"
    fn wanted(graph: &Graph, bit: u64) -> BTreeSet<Set> {
        let holds = |set: &&Set| set.0[bit as usize / 64] >> (bit % 64) & 1 == 1;
        let roots: BTreeSet<Set> = graph.nodes.iter().filter(holds).copied().collect();
        roots.iter().flat_map(|&set| graph.reached(set)).chain(roots.iter().copied()).collect()
    }

    /// After rows 1 to 9: "26 when the bit is E or more or the graph is cyclic, then 27 when the lent answer list holds fewer than A numbers".
    pub fn start_order(&self, load: &Load, bit: u64, chunks: &mut [u32]) -> Reply {
        let graph = Graph::new(load, &self.place);
        if bit >= load.e || graph.cyclic() {
            return Reply::refused(26);
        }
        if (chunks.len() as u64) < load.a {
            return Reply::refused(27);
        }
        let mut left = Self::wanted(&graph, bit);
        let mut count = 0;
        // "at every place stands the smallest set still to list, as a number, whose edges .. all lead to listed chunks"
        let leads = |left: &BTreeSet<Set>, set| graph.edges.keys().any(|(from, to)| *from == set && left.contains(to));
        while let Some(next) = left.iter().copied().find(|&set| !leads(&left, set)) {
            left.remove(&next);
            // "named by its lowest atom"
            chunks[count] = self.place.iter().position(|&set| set == next).unwrap() as u32;
            count += 1;
        }
        Reply::value(count as u64)
    }
}

/// What an area holds; counts, edges, flag and component are worked out from it.
#[derive(Clone, Debug, PartialEq, Eq)]
pub struct MoveState {
    pub registered: Vec<Set>,
    pub node: Vec<u32>,
    pub counter: u32,
    /// One for each of N places.
    pub marks: Vec<u32>,
}

impl MoveState {
    pub fn at_loading(load: &Load, sets: &[Set]) -> Self {
        let node = (0..sets.len() as u32).collect();
        Self { registered: sets.to_vec(), node, counter: 0, marks: vec![0; load.n as usize] }
    }

    pub fn ledger(&self) -> Ledger {
        let place = self.node.iter().map(|&node| self.registered[node as usize]).collect();
        Ledger { place, registered: self.registered.clone() }
    }

    /// Lays every field over the area; cells of no field stay.
    pub fn encode(&self, load: &Load, area: &mut [u32]) {
        let at = load.layout();
        let place = self.ledger().place;
        let graph = Graph::new(load, &place);
        let component = graph.component();
        let node_of: BTreeMap<Set, usize> = self.registered.iter().copied().zip(0..).collect();
        area[..at.n * at.n].fill(0);
        for ((from, to), &count) in &graph.edges {
            area[at.edge(node_of[from], node_of[to])] = count;
        }
        area[at.header(MoveLayout::REGISTERED)] = self.registered.len() as u32;
        area[at.header(MoveLayout::COUNTER)] = self.counter;
        area[at.header(MoveLayout::ACYCLIC)] = (!graph.cyclic()).into();
        area[at.header(MoveLayout::OCCUPIED)] = occupied(&place) as u32;
        area[at.header(MoveLayout::DISTINCT)] = graph.edges.len() as u32;
        for (node, set) in self.registered.iter().enumerate() {
            for (lane, half) in set.halves().into_iter().enumerate() {
                area[at.node_lane(lane, node)] = half;
            }
        }
        for node in 0..at.n {
            let set = self.registered.get(node);
            let count = self.node.iter().filter(|&&other| other as usize == node).count();
            area[at.node_lane(MoveLayout::COUNT, node)] = count as u32;
            area[at.node_lane(MoveLayout::MARK, node)] = self.marks[node];
            area[at.node_lane(MoveLayout::COMPONENT, node)] = set.is_some_and(|set| component.contains(set)).into();
        }
        for (atom, &node) in self.node.iter().enumerate() {
            area[at.atom_lane(MoveLayout::NODE, atom)] = node;
            area[at.atom_lane(MoveLayout::FIXED, atom)] = (load.fixed[atom] != 0).into();
        }
    }

    /// What an area's numbers show, of its first `count` sets, with nothing checked.
    pub fn shown(load: &Load, area: &[u32], count: usize) -> Self {
        let at = load.layout();
        let set = |node| Set::from_halves(std::array::from_fn(|lane| area[at.node_lane(lane, node)]));
        Self {
            registered: (0..count).map(set).collect(),
            node: (0..at.a).map(|atom| area[at.atom_lane(MoveLayout::NODE, atom)]).collect(),
            counter: area[at.header(MoveLayout::COUNTER)],
            marks: (0..at.n).map(|node| area[at.node_lane(MoveLayout::MARK, node)]).collect(),
        }
    }

    /// The state that a consistent area holds.
    pub fn decode(load: &Load, area: &[u32]) -> Option<Self> {
        let at = load.layout();
        let count = area[at.header(MoveLayout::REGISTERED)] as usize;
        if count > at.n {
            return None;
        }
        let state = Self::shown(load, area, count);
        let distinct: BTreeSet<Set> = state.registered.iter().copied().collect();
        let sound = distinct.len() == count
            && distinct.iter().all(|set| set.below(load.e))
            && state.node.iter().all(|&node| (node as usize) < count)
            && state.marks.iter().all(|&mark| mark <= state.counter);
        if !sound {
            return None;
        }
        let mut fresh = area.to_vec();
        state.encode(load, &mut fresh);
        (fresh == area).then_some(state)
    }

    /// The state after a move, by the ledger's step.
    pub fn try_move(&mut self, load: &Load, atom: u32, bits: &[u64]) -> MoveReply {
        let mut ledger = self.ledger();
        let (reply, step) = ledger.try_move(load, atom, bits);
        let Step::Tried { acyclic, accepted } = step else { return reply };
        let target = Set::from_words(bits);
        let unseen = !self.registered.contains(&target);
        self.registered = ledger.registered;
        let to = self.registered.iter().position(|&set| set == target).unwrap();
        if unseen {
            self.marks[to] = 0;
        }
        let from = std::mem::replace(&mut self.node[atom as usize], to as u32);
        if acyclic {
            if self.counter == u32::MAX {
                self.marks.fill(0);
                self.counter = 0;
            }
            self.counter += 1;
            let reached = Graph::new(load, &self.ledger().place).reached(target);
            for (node, set) in self.registered.iter().enumerate() {
                if reached.contains(set) {
                    self.marks[node] = self.counter;
                }
            }
        }
        if !accepted {
            self.node[atom as usize] = from;
        }
        reply
    }
}

/// A whole call on an area: checks, answer, area afterwards.
pub mod whole {
    use super::{Load, MoveState, entry_sets, load_refusal};
    use crate::library::{MoveReply, Reply};
    use crate::sets::width;

    pub fn new(load: &Load, sets: &[u64], area: &mut [u32]) -> Reply {
        let refusal = load_refusal(load, Some(sets), area.len());
        if refusal != 0 {
            return Reply::refused(refusal);
        }
        let state = MoveState::at_loading(load, &entry_sets(sets, load.a as usize, width(load.e) as usize));
        state.encode(load, area);
        Reply::value(super::Graph::new(load, &state.ledger().place).cyclic().into())
    }

    /// Rows 1 to 6 and 9.
    pub fn open(load: &Load, area: &[u32]) -> Result<MoveState, u64> {
        let refusal = load_refusal(load, None, area.len());
        if refusal != 0 {
            return Err(refusal);
        }
        MoveState::decode(load, area).ok_or(9)
    }

    pub fn try_move(load: &Load, area: &mut [u32], atom: u32, bits: &[u64]) -> MoveReply {
        let mut state = match open(load, area) {
            Ok(state) => state,
            Err(refusal) => return MoveReply::refused(refusal),
        };
        let reply = state.try_move(load, atom, bits);
        if reply.refusal == 0 {
            state.encode(load, area);
        }
        reply
    }
}
