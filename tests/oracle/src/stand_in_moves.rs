//! The stand-in library's move graph.
use std::collections::{BTreeMap, BTreeSet};

use crate::layout::MoveLayout;
use crate::library::MoveReply;
use crate::moves_model::{Graph, Load, MoveState, NONE, changes, entry_sets, load_refusal};
use crate::sets::{Set, lent_set, width, words};
use crate::stand_in_library::StandIn;

type Edges = BTreeMap<(Set, Set), u32>;

impl StandIn {
    /// The load as a planted bug sees it; its sizes stay.
    pub(crate) fn seen(&self, load: &Load) -> Load {
        let mut seen = load.clone();
        if self.planted("repeated dependency counted once") {
            (seen.starts, seen.dependencies) = (vec![0], vec![]);
            for atom in 0..load.a as usize {
                let distinct: BTreeSet<u32> = load.of(atom).iter().copied().collect();
                seen.dependencies.extend(distinct);
                seen.starts.push(seen.dependencies.len() as u32);
            }
        }
        seen
    }

    /// Rows 1 to 8, with a planted wrong order.
    pub(crate) fn load_row(&self, load: &Load, sets: Option<&[u64]>, area: usize) -> u64 {
        let row = load_refusal(load, sets, area);
        if row == 2 && self.planted("3 before 2") && area < load.layout().length() {
            return 3;
        }
        let hosts_first = Load { starts: vec![0; load.starts.len()], dependencies: vec![], d: 0, ..load.clone() };
        if row == 5 && self.planted("6 before 5") && load_refusal(&hosts_first, None, usize::MAX) == 6 {
            return 6;
        }
        if let (7, Some(sets), true) = (row, sets, self.planted("8 before 7")) {
            let sets = entry_sets(sets, load.a as usize, width(load.e) as usize);
            if sets.iter().enumerate().any(|(place, set)| sets[..place].contains(set)) {
                return 8;
            }
        }
        row
    }

    /// Rows 1 to 6 and 9, and the state.
    pub(crate) fn open(&self, load: &Load, area: &[u32], question: bool) -> Result<(Load, MoveState), u64> {
        let row = self.load_row(load, None, area.len());
        if row != 0 {
            return Err(row);
        }
        let unchecked = (question && self.planted("a question checks no area"))
            || self.planted("old edges after a move")
            || self.planted("component kept after acceptance")
            || self.planted("two components stored");
        if unchecked {
            return placed(load, area).map(|state| (load.clone(), state)).ok_or(9);
        }
        let seen = self.seen(load);
        let area = self.overlooked(load, area);
        MoveState::decode(&seen, &area).map(|state| (seen, state)).ok_or(9)
    }

    /// The area with what a planted bug doesn't check put right.
    fn overlooked(&self, load: &Load, area: &[u32]) -> Vec<u32> {
        let at = load.layout();
        let mut area = area.to_vec();
        if self.planted("counts not checked by 9") {
            for node in 0..at.n {
                let count =
                    (0..at.a).filter(|&atom| area[at.atom_lane(MoveLayout::NODE, atom)] as usize == node).count();
                area[at.node_lane(MoveLayout::COUNT, node)] = count as u32;
            }
        }
        if self.planted("marks not checked by 9") {
            let counter = area[at.header(MoveLayout::COUNTER)];
            for node in 0..at.n {
                let mark = &mut area[at.node_lane(MoveLayout::MARK, node)];
                *mark = (*mark).min(counter);
            }
        }
        if self.planted("totals not checked by 9") {
            if let Some(state) = placed(load, &area) {
                let mut fresh = area.clone();
                state.encode(load, &mut fresh);
                let totals = at.header(MoveLayout::OCCUPIED)..=at.header(MoveLayout::DISTINCT);
                area[totals.clone()].copy_from_slice(&fresh[totals]);
            }
        }
        if self.planted("fixed flags not checked by 9") {
            for (atom, &mark) in load.fixed.iter().enumerate() {
                area[at.atom_lane(MoveLayout::FIXED, atom)] = (mark != 0).into();
            }
        }
        area
    }

    pub(crate) fn move_state(&self, load: &Load, state: &mut MoveState, atom: u32, bits: &[u64]) -> MoveReply {
        let mut load = load.clone();
        if self.planted("a fixed atom moves") {
            load.fixed.fill(0);
        }
        if let Some(trial) = Trial::new(&load, state, atom, bits) {
            self.spoil_load(&mut load, state, trial);
            self.evict(&load, state, trial);
            let early = (self.early_answer(trial))
                .or_else(|| self.two_components(&load, state, trial))
                .or_else(|| self.walked_from_target(&load, state, trial))
                .or_else(|| self.facade_kept(&load, state, trial));
            if let Some(reply) = early {
                return reply;
            }
        }
        let before = (state.counter, state.marks.clone());
        let place = state.ledger().place;
        let reply = self.miscounted(&load, &place, atom, bits, state.try_move(&load, atom, bits));
        if self.planted("stale marks") {
            (state.counter, state.marks) = before;
        } else if self.planted("early exit of the walk") && reply == MoveReply::rejected() && state.counter != before.0
        {
            state.marks = before.1;
        } else if self.planted("counter wraps to 0") && before.0 == u32::MAX && state.counter == 1 {
            state.counter = 0;
            state.marks.fill(0);
        }
        reply
    }

    /// The edges that come and go, and the chunks reached, as a planted bug counts them.
    fn miscounted(&self, load: &Load, place: &[Set], atom: u32, bits: &[u64], reply: MoveReply) -> MoveReply {
        let (MoveReply { refusal: 0, accepted, appeared, vanished, reached }, Some(target)) =
            (reply, lent_set(bits, load.e))
        else {
            return reply;
        };
        let mut moved = place.to_vec();
        moved[atom as usize] = target;
        let (old, new) = (Graph::new(load, place), Graph::new(load, &moved));
        let (before, after) = (&old.edges, &new.edges);
        if accepted == 0 && self.planted("a rejected move reports its trial") {
            return MoveReply { accepted, ..changes(&old, &new, target) };
        }
        if accepted == 1 && self.planted("a chunk counted as reached by itself") {
            return MoveReply::accepted(appeared, vanished, reached + 1);
        }
        if accepted == 1 && self.planted("the reach in the graph before the move") {
            let there = if old.nodes.contains(&target) { old.others_reached(target) } else { 0 };
            return MoveReply::accepted(appeared, vanished, there);
        }
        if accepted == 1 && self.planted("the reach in one step") {
            return MoveReply::accepted(
                appeared,
                vanished,
                after.keys().filter(|edge| edge.0 == target).count() as u64,
            );
        }
        if accepted == 1 && self.planted("the reach only from an acyclic graph") && old.cyclic() {
            return MoveReply::accepted(appeared, vanished, 0);
        }
        if accepted == 1 && self.planted("appeared and vanished exchanged") {
            return MoveReply::accepted(vanished, appeared, reached);
        }
        if accepted == 1 && self.planted("an edge more told at every addition") {
            let more = after.iter().map(|(edge, &count)| count.saturating_sub(before.get(edge).map_or(0, |&old| old)));
            return MoveReply::accepted(more.map(u64::from).sum(), vanished, reached);
        }
        if accepted == 1 && self.planted("edges removed before edges are added") {
            // What goes with the atom is gone before what comes with it is there: an edge of both that only the atom makes is counted twice.
            let twice = both_ways(load, place, &moved, before, after);
            return MoveReply::accepted(appeared + twice, vanished + twice, reached);
        }
        reply
    }

    /// The load as a planted bug sees it for one move.
    fn spoil_load(&self, load: &mut Load, state: &MoveState, trial: Trial) {
        let count = state.registered.len() as u64;
        if self.planted("evicts with places still free") && trial.unseen && count > load.a {
            load.n = count;
        }
        let occupied = state.ledger().place.contains(&trial.target);
        if self.planted("facade skipped when the target gets its first atom") && !occupied {
            for (bit, host) in load.hosts.iter_mut().enumerate() {
                if Set::single(bit) == trial.target {
                    *host = NONE;
                }
            }
        }
    }

    /// An answer without a look at the graph.
    fn early_answer(&self, trial: Trial) -> Option<MoveReply> {
        if trial.stays() && self.planted("12 left out") {
            return Some(MoveReply::accepted(0, 0, 0));
        }
        if self.planted("13 where all places are taken") && trial.unseen && trial.full {
            return Some(MoveReply::refused(13));
        }
        (self.planted("rejects every move") && trial.has_room()).then_some(MoveReply::rejected())
    }

    /// Another set than the smallest empty one gives up its place, or one does although step 1 rejects the move.
    fn evict(&self, load: &Load, state: &mut MoveState, trial: Trial) {
        if !trial.unseen || !trial.full {
            return;
        }
        let mut after = state.clone();
        after.try_move(load, trial.atom, &words(trial.target, load.e));
        let kept = after.registered == state.registered;
        let mut place = state.ledger().place;
        if self.planted("emptiness judged after the move") {
            place[trial.atom as usize] = trial.target;
        }
        let mut empty: Vec<Set> = state.registered.iter().copied().filter(|set| !place.contains(set)).collect();
        empty.sort_unstable();
        let gone = if kept && self.planted("evicts before step 1") {
            empty.first()
        } else if !kept && self.planted("largest empty set evicted") {
            empty.last()
        } else if !kept && self.planted("smallest registered set evicted") {
            state.registered.iter().min()
        } else if !kept && self.planted("emptiness judged after the move") {
            empty.first()
        } else {
            None
        };
        if let Some(&gone) = gone {
            let node = state.registered.iter().position(|&set| set == gone).unwrap();
            state.registered[node] = trial.target;
            state.marks[node] = 0;
        }
    }

    /// A set is registered although step 1 rejects the move.
    fn two_components(&self, load: &Load, state: &mut MoveState, trial: Trial) -> Option<MoveReply> {
        if !self.planted("two components stored") || !trial.unseen || !trial.has_room() {
            return None;
        }
        let graph = Graph::new(load, &state.ledger().place);
        if !graph.cyclic() || !graph.component().is_empty() {
            return None;
        }
        state.registered.push(trial.target);
        Some(MoveReply::rejected())
    }

    /// A move is accepted because the target doesn't reach itself, although the graph was cyclic.
    fn walked_from_target(&self, load: &Load, state: &mut MoveState, trial: Trial) -> Option<MoveReply> {
        if !self.planted("walk only from the target while cyclic") || !trial.has_room() {
            return None;
        }
        let mut place = state.ledger().place;
        let graph = Graph::new(load, &place);
        place[trial.atom as usize] = trial.target;
        let moved = Graph::new(load, &place);
        if !graph.cyclic()
            || !graph.component().contains(&trial.present)
            || moved.reached(trial.target).contains(&trial.target)
        {
            return None;
        }
        if trial.unseen {
            state.registered.push(trial.target);
        }
        let node = state.registered.iter().position(|&set| set == trial.target).unwrap();
        state.node[trial.atom as usize] = node as u32;
        Some(changes(&graph, &moved, trial.target))
    }

    /// The edge of the left set's bit still counts: a move is rejected for it.
    fn facade_kept(&self, load: &Load, state: &MoveState, trial: Trial) -> Option<MoveReply> {
        if !self.planted("facade of an empty set kept") {
            return None;
        }
        let reply = state.clone().try_move(load, trial.atom, &words(trial.target, load.e));
        let alone = state.ledger().place.iter().filter(|&&set| set == trial.present).count() == 1;
        let host = (0..load.e as usize).find(|&bit| Set::single(bit) == trial.present).map(|bit| load.hosts[bit]);
        (reply.accepted == 1 && alone && host == Some(trial.atom)).then_some(MoveReply::rejected())
    }
}

/// How many edges both graphs have, with no dependency or facade that makes them in both.
fn both_ways(load: &Load, place: &[Set], moved: &[Set], before: &Edges, after: &Edges) -> u64 {
    let mut stays = Edges::new();
    let mut count = |from: (Set, Set), to: (Set, Set)| {
        if from == to {
            *stays.entry(from).or_insert(0) += 1;
        }
    };
    for atom in 0..load.a as usize {
        for &other in load.of(atom) {
            let other = other as usize;
            count((place[atom], place[other]), (moved[atom], moved[other]));
        }
    }
    for (bit, &host) in load.hosts.iter().enumerate() {
        let set = Set::single(bit);
        if host != NONE && place.contains(&set) && moved.contains(&set) {
            count((set, place[host as usize]), (set, moved[host as usize]));
        }
    }
    before.keys().filter(|edge| after.contains_key(edge) && !stays.contains_key(edge)).count() as u64
}

/// The state that an area shows, with nothing checked but that each atom's node is registered.
fn placed(load: &Load, area: &[u32]) -> Option<MoveState> {
    let at = load.layout();
    let count = (area[at.header(MoveLayout::REGISTERED)] as usize).min(at.n);
    let state = MoveState::shown(load, area, count);
    state.node.iter().all(|&node| (node as usize) < count).then_some(state)
}

/// A move of an atom that there is to a set of the right form.
#[derive(Clone, Copy)]
struct Trial {
    atom: u32,
    present: Set,
    target: Set,
    /// The target isn't registered.
    unseen: bool,
    /// N sets are registered.
    full: bool,
}

impl Trial {
    fn new(load: &Load, state: &MoveState, atom: u32, bits: &[u64]) -> Option<Self> {
        let target = lent_set(bits, load.e)?;
        let present = *state.ledger().place.get(atom as usize)?;
        let unseen = !state.registered.contains(&target);
        let full = state.registered.len() as u64 >= load.n;
        Some(Self { atom, present, target, unseen, full })
    }

    fn stays(self) -> bool {
        self.target == self.present
    }

    /// Row 12 doesn't fit, and no set has to give up its place.
    fn has_room(self) -> bool {
        !self.stays() && !(self.unseen && self.full)
    }
}
