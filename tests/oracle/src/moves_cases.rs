//! Move graph cases: what is run, compared and shrunk.
use crate::layout::MoveLayout;
use crate::library::{EdgeReply, Library, MoveReply, Reply, SetReply};
use crate::moves_model::{Load, MoveState, NONE, entry_sets, load_refusal, whole};
use crate::moves_views::{model_view, original_answer, original_lists};
use crate::original::OriginalMoves;
use crate::ranks::rank;
use crate::run::{Case, Counts, GUARD, Random, same, same_area, shorter};
use crate::sets::{Set, width};
use crate::stand_ins::rolldown_utils::BitSet;
use crate::views::MoveView;

#[derive(Clone, Debug, PartialEq, Eq)]
pub enum MoveCall {
    Move {
        atom: u32,
        bits: Vec<u64>,
    },
    AtomSet {
        atom: u32,
    },
    AtomCount {
        bits: Vec<u64>,
    },
    Multiplicity {
        from: Vec<u64>,
        to: Vec<u64>,
    },
    EdgeCount,
    ChunkCount,
    EdgeAt {
        k: u64,
    },
    HasCycle,
    /// With a list of `room` numbers for the chunks.
    StartOrder {
        bit: u64,
        room: usize,
    },
    /// No call: the run puts this number into the walk counter, unless that is higher.
    Counter {
        value: u32,
    },
}

/// What is wrong with what one call is lent.
#[derive(Clone, Debug, Default)]
pub struct Damage {
    pub load: Option<Box<Load>>,
    pub short: bool,
    pub cell: Option<(usize, u32)>,
}

impl Damage {
    pub fn none(&self) -> bool {
        self.load.is_none() && !self.short && self.cell.is_none()
    }
}

#[derive(Clone, Debug)]
pub struct MoveCase {
    pub load: Load,
    pub sets: Vec<u64>,
    /// Numbers lent beyond the required length.
    pub extra: usize,
    /// Lends one number too few at loading.
    pub short: bool,
    /// Fills the area before loading.
    pub fill: u64,
    /// Starts from this consistent area in the place of loading; the original then stays out.
    pub crafted: Option<MoveState>,
    pub calls: Vec<(MoveCall, Damage)>,
}

#[derive(Clone, Debug, PartialEq, Eq)]
pub enum Answer {
    Moved(MoveReply),
    Reply(Reply),
    Set(SetReply),
    Edge(EdgeReply),
    /// With the lent list afterwards.
    Order(Reply, Vec<u32>),
}

impl Answer {
    pub fn refusal(&self) -> u64 {
        match self {
            Self::Moved(reply) => reply.refusal,
            Self::Reply(reply) | Self::Order(reply, _) => reply.refusal,
            Self::Set(reply) => reply.refusal,
            Self::Edge(reply) => reply.refusal,
        }
    }

    fn refused(call: &MoveCall, row: u64) -> Self {
        match call {
            MoveCall::Move { .. } => Self::Moved(MoveReply::refused(row)),
            MoveCall::AtomSet { .. } => Self::Set(SetReply::refused(row)),
            MoveCall::EdgeAt { .. } => Self::Edge(EdgeReply::refused(row)),
            MoveCall::StartOrder { room, .. } => Self::Order(Reply::refused(row), lent_list(*room)),
            _ => Self::Reply(Reply::refused(row)),
        }
    }
}

/// A list that is lent for chunks: no atom's number stands in it.
pub fn lent_list(room: usize) -> Vec<u32> {
    (0..room as u32).map(|place| 1_000_000 + place).collect()
}

pub fn library_answer(library: &dyn Library, load: &Load, area: &mut [u32], call: &MoveCall) -> Answer {
    match call {
        MoveCall::Move { atom, bits } => Answer::Moved(library.try_move(load, area, *atom, bits)),
        MoveCall::AtomSet { atom } => Answer::Set(library.atom_set(load, area, *atom)),
        MoveCall::AtomCount { bits } => Answer::Reply(library.atom_count(load, area, bits)),
        MoveCall::Multiplicity { from, to } => Answer::Reply(library.multiplicity(load, area, from, to)),
        MoveCall::EdgeCount => Answer::Reply(library.edge_count(load, area)),
        MoveCall::ChunkCount => Answer::Reply(library.chunk_count(load, area)),
        MoveCall::EdgeAt { k } => Answer::Edge(library.edge_at(load, area, *k)),
        MoveCall::HasCycle => Answer::Reply(library.has_cycle(load, area)),
        MoveCall::StartOrder { bit, room } => {
            let mut list = lent_list(*room);
            Answer::Order(library.start_order(load, area, *bit, &mut list), list)
        }
        MoveCall::Counter { .. } => unreachable!(),
    }
}

pub fn model_answer(load: &Load, state: &mut MoveState, call: &MoveCall) -> Answer {
    match call {
        MoveCall::Move { atom, bits } => Answer::Moved(state.try_move(load, *atom, bits)),
        MoveCall::AtomSet { atom } => Answer::Set(state.ledger().atom_set(load, *atom)),
        MoveCall::AtomCount { bits } => Answer::Reply(state.ledger().atom_count(load, bits)),
        MoveCall::Multiplicity { from, to } => Answer::Reply(state.ledger().multiplicity(load, from, to)),
        MoveCall::EdgeCount => Answer::Reply(state.ledger().edge_count(load)),
        MoveCall::ChunkCount => Answer::Reply(state.ledger().chunk_count()),
        MoveCall::EdgeAt { k } => Answer::Edge(state.ledger().edge_at(load, *k)),
        MoveCall::HasCycle => Answer::Reply(state.ledger().has_cycle(load)),
        MoveCall::StartOrder { bit, room } => {
            let mut list = lent_list(*room);
            Answer::Order(state.ledger().start_order(load, *bit, &mut list), list)
        }
        MoveCall::Counter { .. } => unreachable!(),
    }
}

impl MoveCase {
    fn fresh_area(&self) -> Vec<u32> {
        let length = if load_refusal(&self.load, None, usize::MAX) == 1 { 64 } else { self.load.layout().length() };
        let mut random = Random(self.fill);
        let length = if self.short { length - 1 } else { length + self.extra };
        (0..length + GUARD).map(|_| random.next() as u32).collect()
    }

    /// One call that is lent something wrong, on a copy.
    fn check_damaged(
        &self,
        library: &dyn Library,
        area: &[u32],
        call: &MoveCall,
        damage: &Damage,
        counts: &mut Counts,
    ) -> Result<(), String> {
        let mut ours = area.to_vec();
        let mut lent = area.len() - GUARD;
        if let Some((cell, value)) = damage.cell {
            ours[cell] = value;
        }
        if damage.short {
            lent = self.load.layout().length() - 1;
        }
        let load = damage.load.as_deref().unwrap_or(&self.load);
        let mut expected = ours.clone();
        let answer = match whole::open(load, &ours[..lent]) {
            Err(row) => Answer::refused(call, row),
            Ok(mut state) => {
                let answer = model_answer(load, &mut state, call);
                if answer.refusal() == 0 {
                    state.encode(load, &mut expected[..lent]);
                }
                answer
            }
        };
        if damage.cell.is_some() && damage.load.is_none() && !damage.short {
            if answer.refusal() == 9 { counts.damaged_refused += 1 } else { counts.damaged_consistent += 1 }
        }
        counts.refused(answer.refusal());
        same("damaged call", &library_answer(library, load, &mut ours[..lent], call), &answer)?;
        same_area("damaged call", &ours, &expected)?;
        // The area as it was, and the one with something wrong, ranked either way.
        let (whole, lent) = (&area[..area.len() - GUARD], &ours[..lent]);
        same("ranking a damaged second", &library.rank(load, whole, lent), &rank(load, whole, lent))?;
        same("ranking a damaged first", &library.rank(load, lent, whole), &rank(load, lent, whole))
    }
}

impl Case for MoveCase {
    fn check(&self, library: Option<&dyn Library>, counts: &mut Counts) -> Result<(), String> {
        counts.cases += 1;
        let load = &self.load;
        let mut area = self.fresh_area();
        let lent = area.len() - GUARD;
        if let Some(state) = &self.crafted {
            state.encode(load, &mut area[..lent]);
            let (state, expected) = (state.clone(), area.clone());
            let seen = state.registered.clone();
            let mut running = Running { library, original: None, view: None, state, seen, area, expected };
            return self.check_calls(&mut running, counts);
        }
        let refusal = load_refusal(load, Some(&self.sets), lent);
        let mut expected = area.clone();
        let reply = whole::new(load, &self.sets, &mut expected[..lent]);
        same("model's loading", &reply.refusal, &refusal)?;
        counts.refused(refusal);
        counts.calls += 1;
        if let Some(library) = library {
            same("loading", &library.move_new(load, &self.sets, &mut area[..lent]), &reply)?;
            same_area("loading", &area, &expected)?;
        }
        if refusal != 0 {
            return Ok(());
        }
        if reply.value == 0 {
            counts.acyclic += 1
        } else {
            counts.cyclic += 1
        }
        let lists = original_lists(load, &self.sets);
        let original = load.unmarked().then(|| OriginalMoves::found(&lists)).flatten();
        let state = MoveState::at_loading(load, &entry_sets(&self.sets, load.a as usize, width(load.e) as usize));
        let seen = state.registered.clone();
        let view = original.as_ref().map(OriginalMoves::view);
        if let (Some(original), Some(view)) = (&original, &view) {
            same("original's loading against the model", &u64::from(!original.acyclic()), &reply.value)?;
            same("original's state at loading against the model", view, &model_view(load, &state, &seen))?;
        }
        self.check_calls(&mut Running { library, original, view, state, seen, area, expected }, counts)
    }

    fn smaller(&self) -> Box<dyn Iterator<Item = Self> + '_> {
        let load = &self.load;
        let calls = shorter(&self.calls).map(|calls| Self { calls, ..self.clone() });
        let cases = calls.chain((self.extra > 0).then(|| Self { extra: 0, ..self.clone() }));
        if load_refusal(load, None, usize::MAX) != 0 {
            return Box::new(cases);
        }
        let fixed = self.crafted.is_some() || self.calls.iter().any(|(_, damage)| !damage.none());
        let upto = move |count: u64| (0..if fixed { 0 } else { count as usize }).rev();
        let atoms = upto(load.a).map(|atom| self.without_atom(atom));
        let dependencies = upto(load.d).map(|entry| self.without_dependency(entry));
        let hosts = (0..load.e as usize).filter(|&bit| load.hosts[bit] != NONE).map(|bit| self.without_host(bit));
        let room = (load.n > load.a + 1 && !fixed)
            .then(|| Self { load: Load { n: load.n - 1, ..load.clone() }, ..self.clone() });
        let narrow = load.e > 0 && width(load.e) == width(load.e - 1) && !fixed;
        let bits = narrow.then(|| self.without_last_bit()).flatten();
        Box::new(cases.chain(atoms).chain(dependencies).chain(hosts).chain(room).chain(bits))
    }
}

/// What the calls of a case are run on.
struct Running<'a> {
    library: Option<&'a dyn Library>,
    original: Option<OriginalMoves<'a>>,
    /// What the original shows after its last move.
    view: Option<MoveView>,
    state: MoveState,
    /// Every set that was ever registered, in that order.
    seen: Vec<Set>,
    area: Vec<u32>,
    /// What the area must be.
    expected: Vec<u32>,
}

impl Running<'_> {
    /// Puts a number into the walk counter, unless that is higher: no mark may be above the counter.
    fn set_counter(&mut self, load: &Load, value: u32) {
        if value < self.state.counter {
            return;
        }
        self.state.counter = value;
        if let Some(original) = &mut self.original {
            original.set_mark(value);
        }
        self.area[load.layout().header(MoveLayout::COUNTER)] = value;
        self.expected.clone_from(&self.area);
    }

    /// Notes a set seen for the first time, and one that gave up its place of those registered before.
    fn note_registered(&mut self, before: &[Set], counts: &mut Counts) {
        let new = self.state.registered.iter().find(|set| !before.contains(set));
        if let Some(&set) = new.filter(|set| !self.seen.contains(set)) {
            self.seen.push(set);
        }
        counts.evicted += u64::from(new.is_some() && before.len() == self.state.registered.len());
    }

    /// The original's move against the model's: "Where .. the Rust and ours are compared, these numbers are left out".
    fn same_move(&mut self, load: &Load, atom: u32, bits: &[u64], reply: MoveReply) -> Result<(), String> {
        let Some(original) = &mut self.original else { return Ok(()) };
        let accepted = original.try_move(atom, &BitSet::from_words(bits));
        same("original against the model", &u64::from(accepted), &reply.accepted)?;
        let theirs = original.view();
        same("original's state against the model", &theirs, &model_view(load, &self.state, &self.seen))?;
        same("original's counter", &original.mark(), &self.state.counter)?;
        self.view = Some(theirs);
        Ok(())
    }

    /// The original's answer, where it has one, against the model's.
    fn same_original(&mut self, load: &Load, call: &MoveCall, answer: &Answer) -> Result<(), String> {
        if let (MoveCall::Move { atom, bits }, Answer::Moved(reply @ MoveReply { refusal: 0, .. })) = (call, answer) {
            return self.same_move(load, *atom, bits, *reply);
        }
        let told = self.view.as_ref().filter(|_| answer.refusal() == 0).and_then(|view| original_answer(view, call));
        told.map_or(Ok(()), |told| same("original against the model", &told, answer))
    }

    /// The library's ranking of an earlier plan and this one, either way, against the model's.
    fn same_rank(&self, load: &Load, earlier: &[u32], turned: bool, counts: &mut Counts) -> Result<(), String> {
        let Some(library) = self.library else { return Ok(()) };
        let lent = self.area.len() - GUARD;
        let (first, second) = (&earlier[..lent], &self.expected[..lent]);
        let (first, second) = if turned { (second, first) } else { (first, second) };
        let told = rank(load, first, second);
        counts.ranked[told.value as usize] += 1;
        same("ranking", &library.rank(load, first, second), &told)
    }

    /// The library's answer and area against the model's.
    fn same_library(&mut self, load: &Load, call: &MoveCall, answer: &Answer) -> Result<(), String> {
        let Some(library) = self.library else { return Ok(()) };
        let lent = self.area.len() - GUARD;
        same("library", &library_answer(library, load, &mut self.area[..lent], call), answer)?;
        if answer.refusal() == 0 && matches!(call, MoveCall::Move { .. }) {
            self.state.encode(load, &mut self.expected[..lent]);
        }
        same_area("library", &self.area, &self.expected)
    }
}

impl MoveCase {
    fn check_calls(&self, running: &mut Running, counts: &mut Counts) -> Result<(), String> {
        let load = &self.load;
        let mut earlier = running.expected.clone();
        for (place, (call, damage)) in self.calls.iter().enumerate() {
            counts.calls += 1;
            let at = |why: String| format!("call {place}: {why}");
            if let MoveCall::Counter { value } = call {
                running.set_counter(load, *value);
                continue;
            }
            if !damage.none() {
                if let Some(library) = running.library {
                    self.check_damaged(library, &running.area, call, damage, counts).map_err(at)?;
                }
                continue;
            }
            let sets = running.state.registered.clone();
            let answer = model_answer(load, &mut running.state, call);
            running.note_registered(&sets, counts);
            counts.refused(answer.refusal());
            if let Answer::Moved(MoveReply { refusal: 0, accepted, .. }) = &answer {
                if *accepted == 1 { counts.accepted += 1 } else { counts.rejected += 1 }
            }
            running.same_original(load, call, &answer).map_err(at)?;
            running.same_library(load, call, &answer).map_err(at)?;
            if answer.refusal() == 0 && matches!(call, MoveCall::Move { .. }) {
                running.same_rank(load, &earlier, place % 2 == 0, counts).map_err(at)?;
                // Now and then the plan that later ones are ranked with is another.
                if place % 5 == 4 {
                    earlier.clone_from(&running.expected);
                }
            }
        }
        Ok(())
    }
}

impl MoveCase {
    fn without_dependency(&self, entry: usize) -> Self {
        let mut case = self.clone();
        case.load.d -= 1;
        case.load.dependencies.remove(entry);
        case.load.starts.iter_mut().filter(|start| **start as usize > entry).for_each(|start| *start -= 1);
        case
    }

    fn without_host(&self, bit: usize) -> Self {
        let mut case = self.clone();
        case.load.hosts[bit] = NONE;
        case
    }

    /// The case with one entry bit fewer, if no set has that bit.
    fn without_last_bit(&self) -> Option<Self> {
        let mut case = self.clone();
        case.load.e -= 1;
        case.load.hosts.pop();
        (load_refusal(&case.load, Some(&case.sets), usize::MAX) == 0).then_some(case)
    }

    fn without_atom(&self, gone: usize) -> Self {
        let renumber = |atom: u32| if atom as usize > gone && atom != NONE { atom - 1 } else { atom };
        let w = width(self.load.e) as usize;
        let mut load = Load { a: self.load.a - 1, starts: vec![0], dependencies: vec![], ..self.load.clone() };
        for atom in (0..self.load.a as usize).filter(|&atom| atom != gone) {
            let kept = self.load.of(atom).iter().filter(|&&other| other as usize != gone);
            load.dependencies.extend(kept.map(|&other| renumber(other)));
            load.starts.push(load.dependencies.len() as u32);
        }
        load.d = load.dependencies.len() as u64;
        load.fixed.remove(gone);
        for host in &mut load.hosts {
            *host = if *host as usize == gone { NONE } else { renumber(*host) };
        }
        let mut sets = self.sets.clone();
        sets.drain(gone * w..((gone + 1) * w).min(self.sets.len()));
        let calls = (self.calls.iter())
            .filter_map(|(call, damage)| {
                let call = match call {
                    MoveCall::Move { atom, .. } | MoveCall::AtomSet { atom } if *atom as usize == gone => return None,
                    MoveCall::Move { atom, bits } => MoveCall::Move { atom: renumber(*atom), bits: bits.clone() },
                    MoveCall::AtomSet { atom } => MoveCall::AtomSet { atom: renumber(*atom) },
                    other => other.clone(),
                };
                Some((call, damage.clone()))
            })
            .collect();
        Self { load, sets, calls, ..self.clone() }
    }
}
