//! A stand-in for the library, over the model, with bugs that can be planted: it shows that the runs find them.
use crate::layout::{MergeLayout, MoveLayout};
use crate::library::{EdgeReply, Library, MergeLoad, MoveReply, Reply, SetReply};
use crate::merges_calls::{self, MergeCall};
use crate::merges_model::Size;
use crate::moves_model::{Graph, Load, MoveState, NONE, whole};
use crate::ranks::{merits, rank, told};
use crate::sets::{Set, lent_set, width};

/// No bug: nobody looks at these flags.
pub const HARMLESS: &str = "loading clears the flags of chunks not yet made";

/// Bugs by name; the first two are none.
pub const PLANTS: [&str; 77] = [
    "none",
    HARMLESS,
    "repeated dependency counted once",
    "facade skipped when the target gets its first atom",
    "facade of an empty set kept",
    "stale marks",
    "early exit of the walk",
    "wrong order of edges",
    "facade edges left out of the verdict",
    "multiplicities invented on listing",
    "fewer edges ranked before fewer chunks",
    "more chunks ranked first",
    "ranked from the last atom",
    "the second plan isn't checked",
    "a write beyond the area",
    "a write at refusal 12",
    "old edges after a move",
    "13 where all places are taken",
    "as many sets as atoms let through",
    "evicts with places still free",
    "evicts before step 1",
    "largest empty set evicted",
    "smallest registered set evicted",
    "emptiness judged after the move",
    "walk only from the target while cyclic",
    "component kept after acceptance",
    "two components stored",
    "rejects every move",
    "counts not checked by 9",
    "marks not checked by 9",
    "upper words of a set ignored",
    "12 left out",
    "counter wraps to 0",
    "3 before 2",
    "6 before 5",
    "8 before 7",
    "10 before 9",
    "11 before 10",
    "12 before 11",
    "24 after 11",
    "edges removed before edges are added",
    "an edge more told at every addition",
    "appeared and vanished exchanged",
    "a rejected move reports its trial",
    "a chunk counted as reached by itself",
    "the reach in the graph before the move",
    "the reach in one step",
    "the reach only from an acyclic graph",
    "a fixed atom moves",
    "a mark kept as lent",
    "fixed flags not checked by 9",
    "registered sets counted for chunks",
    "an old total after a move",
    "totals not checked by 9",
    "a question checks no area",
    "the highest atom",
    "a number past the last chunk",
    "27 before 26",
    "1,025 sets let through",
    "needs_creation cleared",
    "merging does nothing",
    "constant warning",
    "source keeps its set",
    "side effects lost in a merge",
    "numbers restart at each pass",
    "calc clears",
    "a module stays where it was put first",
    "is_reachable in no step",
    "bar ignored",
    "a refused pass writes its lists",
    "15 of the pass before 21",
    "17 before 16",
    "18 before 16",
    "19 before 18",
    "20 before 16",
    "no room for a set in a made-up area",
    "1,025 chunks let through",
];

pub struct StandIn {
    pub plant: &'static str,
}

impl StandIn {
    pub(crate) fn planted(&self, name: &str) -> bool {
        debug_assert!(PLANTS.contains(&name), "{name}");
        self.plant == name
    }

    fn question<T>(
        &self,
        load: &Load,
        area: &[u32],
        refused: impl Fn(u64) -> T,
        answer: impl FnOnce(&Load, MoveState) -> T,
    ) -> T {
        match self.open(load, area, true) {
            Err(row) => refused(row),
            Ok((load, state)) => answer(&load, state),
        }
    }
}

impl Library for StandIn {
    fn move_new(&self, load: &Load, sets: &[u64], area: &mut [u32]) -> Reply {
        let row = self.load_row(load, Some(sets), area.len());
        if row == 1 && load.n == 1025 && self.planted("1,025 sets let through") {
            return Reply::value(0);
        }
        if row == 1 && load.n == load.a && self.planted("as many sets as atoms let through") {
            return Reply::value(0);
        }
        if row != 0 {
            return Reply::refused(row);
        }
        let reply = whole::new(load, sets, area);
        if self.planted("repeated dependency counted once") {
            let state = MoveState::decode(load, area).unwrap();
            state.encode(&self.seen(load), area);
        }
        if self.planted("a mark kept as lent") {
            let at = load.layout();
            for (atom, &mark) in load.fixed.iter().enumerate() {
                area[at.atom_lane(MoveLayout::FIXED, atom)] = mark;
            }
        }
        reply
    }

    fn try_move(&self, load: &Load, area: &mut [u32], atom: u32, bits: &[u64]) -> MoveReply {
        let (seen, mut state) = match self.open(load, area, false) {
            Ok(open) => open,
            Err(9) if self.planted("10 before 9") && u64::from(atom) >= load.a => return MoveReply::refused(10),
            Err(row) => return MoveReply::refused(row),
        };
        let wrong_set = lent_set(bits, load.e).is_none();
        if self.planted("11 before 10") && wrong_set {
            return MoveReply::refused(11);
        }
        if self.planted("12 before 11") && wrong_set && u64::from(atom) < load.a && bits.len() <= 4 {
            // A list of the wrong length that names the present set.
            if Set::from_words(bits) == state.ledger().place[atom as usize] {
                return MoveReply::refused(12);
            }
        }
        if self.planted("24 after 11") && wrong_set && load.fixed.get(atom as usize).is_some_and(|&mark| mark != 0) {
            return MoveReply::refused(11);
        }
        let at = load.layout();
        let reply = self.move_state(&seen, &mut state, atom, bits);
        if reply.refusal == 0 {
            let edges = area[..at.n * at.n].to_vec();
            let total = area[at.header(MoveLayout::DISTINCT)];
            let component: Vec<u32> = (0..at.n).map(|node| area[at.node_lane(MoveLayout::COMPONENT, node)]).collect();
            state.encode(&seen, area);
            if self.planted("old edges after a move") {
                area[..at.n * at.n].copy_from_slice(&edges);
            }
            if self.planted("an old total after a move") {
                area[at.header(MoveLayout::DISTINCT)] = total;
            }
            if self.planted("component kept after acceptance") {
                for (node, flag) in component.into_iter().enumerate() {
                    area[at.node_lane(MoveLayout::COMPONENT, node)] = flag;
                }
            }
            if self.planted("a write beyond the area") && area.len() > at.length() {
                area[at.length()] = 0;
            }
        } else if reply.refusal == 12 && self.planted("a write at refusal 12") {
            area[at.header(MoveLayout::COUNTER)] += 1;
        }
        reply
    }

    fn atom_set(&self, load: &Load, area: &[u32], atom: u32) -> SetReply {
        self.question(load, area, SetReply::refused, |load, state| state.ledger().atom_set(load, atom))
    }

    fn atom_count(&self, load: &Load, area: &[u32], bits: &[u64]) -> Reply {
        self.question(load, area, Reply::refused, |load, state| {
            if self.planted("upper words of a set ignored") && lent_set(bits, load.e).is_some() && !bits.is_empty() {
                return Reply::value(state.ledger().place.iter().filter(|set| set.0[0] == bits[0]).count() as u64);
            }
            state.ledger().atom_count(load, bits)
        })
    }

    fn multiplicity(&self, load: &Load, area: &[u32], from: &[u64], to: &[u64]) -> Reply {
        self.question(load, area, Reply::refused, |load, state| state.ledger().multiplicity(load, from, to))
    }

    fn edge_count(&self, load: &Load, area: &[u32]) -> Reply {
        self.question(load, area, Reply::refused, |load, state| state.ledger().edge_count(load))
    }

    fn chunk_count(&self, load: &Load, area: &[u32]) -> Reply {
        let planted = self.planted("registered sets counted for chunks");
        let counted = |state: MoveState| {
            if planted { Reply::value(state.registered.len() as u64) } else { state.ledger().chunk_count() }
        };
        self.question(load, area, Reply::refused, |_, state| counted(state))
    }

    fn edge_at(&self, load: &Load, area: &[u32], k: u64) -> EdgeReply {
        self.question(load, area, EdgeReply::refused, |load, state| {
            let mut reply = state.ledger().edge_at(load, k);
            if self.planted("multiplicities invented on listing") {
                reply.multiplicity = reply.found;
            }
            if self.planted("wrong order of edges") {
                let edges = Graph::new(load, &state.ledger().place).edges;
                let node = |set: &Set| state.registered.iter().position(|other| other == set);
                let mut listed: Vec<_> = edges.into_iter().collect();
                listed.sort_by_key(|((from, to), _)| (node(from), node(to)));
                if let Some(((from, to), count)) = usize::try_from(k).ok().and_then(|k| listed.get(k)) {
                    reply = EdgeReply::edge(*from, *to, u64::from(*count));
                }
            }
            reply
        })
    }

    fn rank(&self, load: &Load, first: &[u32], second: &[u32]) -> Reply {
        let place = |area: &[u32]| whole::open(load, area).map(|state| state.ledger().place);
        let (one, other) = match (place(first), place(second)) {
            (Ok(one), Ok(other)) => (merits(load, &one), merits(load, &other)),
            (Ok(_), Err(9)) if self.planted("the second plan isn't checked") => return Reply::value(0),
            _ => return rank(load, first, second),
        };
        if self.planted("fewer edges ranked before fewer chunks") {
            return told((one.1, one.0, one.2).cmp(&(other.1, other.0, other.2)));
        }
        if self.planted("more chunks ranked first") {
            return told((other.0, one.1, one.2).cmp(&(one.0, other.1, other.2)));
        }
        if self.planted("ranked from the last atom") {
            let turned = |places: Vec<Set>| places.into_iter().rev().collect::<Vec<_>>();
            return told((one.0, one.1, turned(one.2)).cmp(&(other.0, other.1, turned(other.2))));
        }
        told(one.cmp(&other))
    }

    fn has_cycle(&self, load: &Load, area: &[u32]) -> Reply {
        self.question(load, area, Reply::refused, |load, state| {
            if self.planted("facade edges left out of the verdict") {
                let hosts = vec![NONE; load.hosts.len()];
                return state.ledger().has_cycle(&Load { hosts, ..load.clone() });
            }
            state.ledger().has_cycle(load)
        })
    }

    fn start_order(&self, load: &Load, area: &[u32], bit: u64, chunks: &mut [u32]) -> Reply {
        self.question(load, area, Reply::refused, |load, state| {
            if self.planted("27 before 26") && (chunks.len() as u64) < load.a {
                return Reply::refused(27);
            }
            let reply = state.ledger().start_order(load, bit, chunks);
            if self.planted("the highest atom") && reply.refusal == 0 {
                let place = state.ledger().place;
                for name in &mut chunks[..reply.value as usize] {
                    let set = place[*name as usize];
                    *name = place.iter().rposition(|&other| other == set).unwrap() as u32;
                }
            }
            if self.planted("a number past the last chunk") && (reply.value as usize) < chunks.len() {
                chunks[reply.value as usize] = 0;
            }
            reply
        })
    }

    fn merge_new(&self, size: Size, load: &MergeLoad, area: &mut [u32]) -> Reply {
        match merges_calls::new(size, load, area.len()) {
            Err(16) if self.planted("17 before 16") => {
                let w = width(size.e).max(1) as usize;
                let sets: Vec<&[u64]> = load.sets.chunks(w).collect();
                let twice = sets.iter().enumerate().any(|(place, set)| sets[..place].contains(set));
                Reply::refused(if twice { 17 } else { 16 })
            }
            Err(14) if self.planted("1,025 chunks let through") && size.c == 1025 => Reply::default(),
            Err(row) => Reply::refused(row),
            Ok(state) => {
                state.encode(size, area);
                if self.planted(HARMLESS) {
                    let at = size.layout();
                    for chunk in state.made() as usize..at.c {
                        for lane in [MergeLayout::SIDE_EFFECTS, MergeLayout::NEEDS_CREATION] {
                            area[at.chunk_lane(lane, chunk)] = 0;
                        }
                    }
                }
                Reply::default()
            }
        }
    }

    fn init_module(&self, size: Size, area: &mut [u32], module: u32, bits: &[u64], side_effects: &[u32]) -> Reply {
        let (bits, side_effects) = (bits.to_vec(), side_effects.to_vec());
        self.merge_call(size, area, &MergeCall::InitModule { module, bits, side_effects }).0
    }

    fn add_module(&self, size: Size, area: &mut [u32], module: u32, chunk: u32, side_effects: &[u32]) -> Reply {
        let side_effects = side_effects.to_vec();
        self.merge_call(size, area, &MergeCall::AddModule { module, chunk, side_effects }).0
    }

    fn register(&self, size: Size, area: &mut [u32], key: u32, chunk: u32) -> Reply {
        self.merge_call(size, area, &MergeCall::Register { key, chunk }).0
    }

    fn to_temp_idx(&self, size: Size, area: &[u32], key: u32) -> Reply {
        self.merge_call(size, &mut area.to_vec(), &MergeCall::ToTempIdx { key }).0
    }

    fn calc(&self, size: Size, area: &mut [u32], starts: &[u32], dependencies: &[u32]) -> Reply {
        let (starts, dependencies) = (starts.to_vec(), dependencies.to_vec());
        self.merge_call(size, area, &MergeCall::Calc { starts, dependencies }).0
    }

    fn warning(&self, size: Size, area: &[u32], source: u32, target: u32) -> Reply {
        self.merge_call(size, &mut area.to_vec(), &MergeCall::Warning { source, target }).0
    }

    fn is_reachable(&self, size: Size, area: &[u32], from: u32, to: u32) -> Reply {
        self.merge_call(size, &mut area.to_vec(), &MergeCall::IsReachable { from, to }).0
    }

    fn merge(&self, size: Size, area: &mut [u32], target: u32, source: u32) -> Reply {
        self.merge_call(size, area, &MergeCall::Merge { target, source }).0
    }

    fn pass(
        &self,
        size: Size,
        area: &mut [u32],
        proposals: &[u32],
        bars: &[u32],
        kinds: &mut [u32],
        numbers: &mut [u32],
    ) -> Reply {
        let call = MergeCall::Pass {
            proposals: proposals.to_vec(),
            bars: bars.to_vec(),
            kinds: kinds.len(),
            numbers: numbers.len(),
        };
        let (reply, lists) = self.merge_call(size, area, &call);
        for (place, &(kind, number)) in lists.iter().enumerate() {
            (kinds[place], numbers[place]) = (kind, number);
        }
        if self.planted("a refused pass writes its lists") && reply.refusal == 18 && !kinds.is_empty() {
            kinds[0] = 1;
        }
        reply
    }
}
