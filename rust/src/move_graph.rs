//! The move graph with an area of its own.
use crate::entry_set::flat;
use crate::load::Lists;
use crate::{lent, EntrySet, Load, OwnedLoad, RankError, Refusal};
use std::cmp::Ordering;
use std::collections::BTreeMap;

/// An edge of the chunk graph.
#[derive(Clone, Copy, Debug, PartialEq, Eq)]
pub struct Edge {
    /// The chunk that depends.
    pub from: EntrySet,
    /// The chunk that it depends on.
    pub to: EntrySet,
    /// How many dependencies and facade edges stand behind it.
    pub multiplicity: u64,
}

/// How free a plan is: the pairs of an atom and an occupied set other than its own, counted by what a move would be answered. They
/// add up to atoms × (occupied sets - 1).
#[derive(Clone, Copy, Debug, PartialEq, Eq)]
pub struct Freedom {
    /// The move would be accepted.
    pub accepted: u64,
    /// It would be rejected.
    pub rejected: u64,
    /// The atom is fixed.
    pub fixed: u64,
}

/// What a move came to: whether it is accepted, and then how many distinct edges came and went and how many other chunks the
/// atom's chunk reaches. An edge that both graphs have counts as neither; a rejected move has zeros.
#[derive(Clone, Copy, Debug, PartialEq, Eq)]
pub struct Moved {
    /// Whether the atom is now in the set.
    pub accepted: bool,
    /// How many edges the graph has that it hadn't before the move.
    pub appeared: u64,
    /// How many edges the graph had before the move that it hasn't any more.
    pub vanished: u64,
    /// How many other chunks the atom's new chunk reaches: at most the number of chunks less one.
    pub reached: u64,
}

/// A chunk: an occupied set.
#[derive(Clone, Debug, PartialEq, Eq)]
pub struct Chunk {
    /// The set of entry bits that names it.
    pub set: EntrySet,
    /// Its atoms, rising; there is at least one.
    pub atoms: Vec<u32>,
}

/// The edges of a chunk graph, by rising source set, then target set; of [`MoveGraph::edges`].
#[derive(Clone, Debug)]
pub struct Edges(std::vec::IntoIter<Edge>);

impl Edges {
    /// Those that are still to come.
    pub fn as_slice(&self) -> &[Edge] {
        self.0.as_slice()
    }
}

impl Iterator for Edges {
    type Item = Edge;

    fn next(&mut self) -> Option<Edge> {
        self.0.next()
    }

    fn size_hint(&self) -> (usize, Option<usize>) {
        self.0.size_hint()
    }
}

impl DoubleEndedIterator for Edges {
    fn next_back(&mut self) -> Option<Edge> {
        self.0.next_back()
    }
}

impl ExactSizeIterator for Edges {}

impl std::iter::FusedIterator for Edges {}

/// Atoms in sets of entry bits, moved only where no cycle comes of it.
///
/// ```
/// use nidskalm::{EntrySet, Load, MoveGraph, NONE};
///
/// // Two atoms that depend on each other: cyclic, until one moves to the other.
/// let load = Load { starts: &[0, 1, 2], dependencies: &[1, 0], hosts: &[NONE, NONE], fixed: &[0, 0] };
/// let mut graph = MoveGraph::new(load, 4, &[EntrySet::from(1), EntrySet::from(2)])?;
/// assert!(graph.cyclic_at_loading());
/// assert!(!graph.try_move(0, EntrySet::from(3))?.accepted);
/// assert!(graph.try_move(0, EntrySet::from(2))?.accepted);
/// assert_eq!(graph.atom_count(EntrySet::from(2))?, 2);
/// assert_eq!(graph.edge_count()?, 0);
/// assert_eq!(graph.chunk_count()?, 1);
/// # Ok::<(), nidskalm::Refusal>(())
/// ```
///
/// A graph borrows its load ([`new`](Self::new)), or owns it ([`owning`](MoveGraph::owning)) and is then `MoveGraph<'static>`,
/// which a service can keep in a struct.
#[derive(Clone, Debug)]
pub struct MoveGraph<'a> {
    lists: Lists<'a>,
    sets: u64,
    cyclic_at_loading: bool,
    acyclic: bool,
    area: Vec<u32>,
}

impl MoveGraph<'static> {
    /// Loads as [`new`](MoveGraph::new) does, and keeps the load.
    ///
    /// ```
    /// use nidskalm::{EntrySet, MoveGraph, OwnedLoad, Refusal};
    ///
    /// struct Service {
    ///     plan: MoveGraph<'static>,
    /// }
    ///
    /// fn start() -> Result<Service, Refusal> {
    ///     let load = OwnedLoad::from_lists([vec![], vec![0]], [None, None]);
    ///     Ok(Service { plan: MoveGraph::owning(load, 4, &[EntrySet::from(3), EntrySet::from(1)])? })
    /// }
    ///
    /// let mut service = start()?;
    /// service.plan.try_move(0, EntrySet::from(1))?;
    /// assert_eq!(service.plan.atom_set(0)?, EntrySet::from(1));
    /// # Ok::<(), Refusal>(())
    /// ```
    pub fn owning(load: OwnedLoad, sets: u64, entry_sets: &[EntrySet]) -> Result<Self, Refusal> {
        Self::loaded(Lists::Owned(load), sets, entry_sets)
    }
}

impl<'a> MoveGraph<'a> {
    /// Loads the atoms with their entry sets, no two equal, and room for `sets` sets in all, at least one more than
    /// atoms. When all places are taken and a move needs another, the smallest empty set, as a number, gives up its own.
    ///
    /// Whole builds of some packages have more than 512 atoms or 256 entry bits, and are refused by row 1. Then fuse atoms that
    /// are to lie in one chunk anyway, or load one layer of the script at a time (README.md, "Over the limits").
    ///
    /// ```
    /// use nidskalm::{EntrySet, Load, MoveGraph, NONE};
    ///
    /// let load = Load { starts: &[0, 0], dependencies: &[], hosts: &[NONE; 16], fixed: &[0] };
    /// assert_eq!(MoveGraph::new(load, 1, &[EntrySet::from(1)]).unwrap_err().row(), 1);
    /// let mut graph = MoveGraph::new(load, 2, &[EntrySet::from(1)])?;
    /// assert!((2..1000).all(|set| graph.try_move(0, EntrySet::from(set)).is_ok_and(|moved| moved.accepted)));
    /// # Ok::<(), nidskalm::Refusal>(())
    /// ```
    pub fn new(load: Load<'a>, sets: u64, entry_sets: &[EntrySet]) -> Result<Self, Refusal> {
        Self::loaded(Lists::Borrowed(load), sets, entry_sets)
    }

    fn loaded(lists: Lists<'a>, sets: u64, entry_sets: &[EntrySet]) -> Result<Self, Refusal> {
        let load = lists.load();
        let (list, whole) = flat(entry_sets, load.hosts.len().div_ceil(64));
        let mut area = vec![0; lent::move_area_length(&load, sets).unwrap_or(0)];
        let reply = lent::reduced_chunk_graph_new(&load, sets, &list, &mut area);
        // Without entry bits the list is empty for any number of sets; and a bit may have been cut off.
        let row = Refusal::first(reply.refusal, entry_sets.len() != load.atoms(), 2);
        let row = Refusal::first(row, !whole, 7);
        let cyclic = reply.value == 1;
        Refusal::check(row, Self { lists, sets, cyclic_at_loading: cyclic, acyclic: !cyclic, area })
    }

    /// The load.
    pub fn load(&self) -> Load<'_> {
        self.lists.load()
    }

    /// Whether the graph had a cycle when it was loaded.
    pub fn cyclic_at_loading(&self) -> bool {
        self.cyclic_at_loading
    }

    /// Whether no two chunks import each other in a circle, as things stand: it was so at loading, or a move has been
    /// accepted since. An accepted move leaves no cycle, and a rejected one changes no edge.
    ///
    /// ```
    /// use nidskalm::{EntrySet, MoveGraph, OwnedLoad};
    ///
    /// let load = OwnedLoad::from_lists([[1], [0]], [None, None]);
    /// let mut graph = MoveGraph::owning(load, 4, &[EntrySet::from(1), EntrySet::from(2)])?;
    /// assert!(!graph.is_acyclic());
    /// graph.try_move(0, EntrySet::from(3))?;
    /// assert!(!graph.is_acyclic(), "rejected");
    /// graph.try_move(0, EntrySet::from(2))?;
    /// assert!(graph.is_acyclic() && graph.cyclic_at_loading());
    /// # Ok::<(), nidskalm::Refusal>(())
    /// ```
    pub fn is_acyclic(&self) -> bool {
        self.acyclic
    }

    /// Moves an atom to another set if the chunk graph then has no cycle, and tells how many edges came and went and how many
    /// other chunks its chunk then reaches. A fixed atom stays.
    ///
    /// ```
    /// use nidskalm::{EntrySet, Load, MoveGraph, Moved, NONE};
    ///
    /// // Atom 0 depends on atom 1, which is fixed: in a new chunk it still reaches that one. The edge between their chunks
    /// // goes when they share one.
    /// let load = Load { starts: &[0, 1, 1], dependencies: &[1], hosts: &[NONE, NONE], fixed: &[0, 1] };
    /// let mut graph = MoveGraph::new(load, 3, &[EntrySet::from(1), EntrySet::from(2)])?;
    /// assert_eq!(graph.try_move(0, EntrySet::from(3))?.reached, 1);
    /// let moved = graph.try_move(0, EntrySet::from(2))?;
    /// assert_eq!(moved, Moved { accepted: true, appeared: 0, vanished: 1, reached: 0 });
    /// assert_eq!(graph.try_move(1, EntrySet::from(1)).unwrap_err().row(), 24);
    /// # Ok::<(), nidskalm::Refusal>(())
    /// ```
    pub fn try_move(&mut self, atom: u32, target: EntrySet) -> Result<Moved, Refusal> {
        let load = self.lists.load();
        let bits = target.lent(load.hosts.len());
        let reply = lent::reduced_chunk_graph_try_move(&load, self.sets, &mut self.area, atom, bits);
        let accepted = Refusal::check(reply.refusal, reply.accepted == 1)?;
        self.acyclic |= accepted;
        Ok(Moved { accepted, appeared: reply.appeared, vanished: reply.vanished, reached: reply.reached })
    }

    /// The set that an atom is in.
    pub fn atom_set(&self, atom: u32) -> Result<EntrySet, Refusal> {
        let reply = lent::reduced_chunk_graph_atom_set(&self.load(), self.sets, &self.area, atom);
        let set = EntrySet::from_words([reply.set0, reply.set1, reply.set2, reply.set3]);
        Refusal::check(reply.refusal, set)
    }

    /// The number of atoms in a set.
    pub fn atom_count(&self, set: EntrySet) -> Result<u64, Refusal> {
        let bits = set.lent(self.load().hosts.len());
        let reply = lent::reduced_chunk_graph_atom_count(&self.load(), self.sets, &self.area, bits);
        Refusal::check(reply.refusal, reply.value)
    }

    /// How many dependencies and facade edges lead from one chunk to another.
    pub fn multiplicity(&self, from: EntrySet, to: EntrySet) -> Result<u64, Refusal> {
        let (from, to) = (from.lent(self.load().hosts.len()), to.lent(self.load().hosts.len()));
        let reply = lent::reduced_chunk_graph_multiplicity(&self.load(), self.sets, &self.area, from, to);
        Refusal::check(reply.refusal, reply.value)
    }

    /// The number of distinct edges.
    pub fn edge_count(&self) -> Result<u64, Refusal> {
        let reply = lent::reduced_chunk_graph_edge_count(&self.load(), self.sets, &self.area);
        Refusal::check(reply.refusal, reply.value)
    }

    /// The number of chunks: sets that have an atom.
    pub fn chunk_count(&self) -> Result<u64, Refusal> {
        let reply = lent::reduced_chunk_graph_chunk_count(&self.load(), self.sets, &self.area);
        Refusal::check(reply.refusal, reply.value)
    }

    /// How free the plan is: each atom tried, without a move, with each occupied set other than its own.
    ///
    /// ```
    /// use nidskalm::{EntrySet, Freedom, Load, MoveGraph, NONE};
    ///
    /// let load = Load { starts: &[0, 1, 1, 2], dependencies: &[1, 0], hosts: &[NONE; 3], fixed: &[0, 0, 7] };
    /// let graph = MoveGraph::new(load, 4, &[6, 5, 3].map(EntrySet::from))?;
    /// assert_eq!(graph.freedom()?, Freedom { accepted: 3, rejected: 1, fixed: 2 });
    /// # Ok::<(), nidskalm::Refusal>(())
    /// ```
    pub fn freedom(&self) -> Result<Freedom, Refusal> {
        let reply = lent::reduced_chunk_graph_freedom(&self.load(), self.sets, &self.area);
        let freedom = Freedom { accepted: reply.accepted, rejected: reply.rejected, fixed: reply.fixed };
        Refusal::check(reply.refusal, freedom)
    }

    /// The k-th edge, from 0, by rising source set, then target set; none past the last.
    pub fn edge_at(&self, k: u64) -> Result<Option<Edge>, Refusal> {
        let reply = lent::reduced_chunk_graph_edge_at(&self.load(), self.sets, &self.area, k);
        let edge = Edge {
            from: EntrySet::from_words([reply.from0, reply.from1, reply.from2, reply.from3]),
            to: EntrySet::from_words([reply.to0, reply.to1, reply.to2, reply.to3]),
            multiplicity: reply.multiplicity,
        };
        Refusal::check(reply.refusal, (reply.found == 1).then_some(edge))
    }

    /// Which of two plans is better, of this graph and another of the same load and the same room for sets: `Less` where this one
    /// comes first. Fewer chunks come first, then fewer edges, then the atoms' sets as numbers from atom 0, the smaller first;
    /// `Equal` exactly where every atom has the same set in both. Graphs of different loads or rooms have no ranking.
    ///
    /// ```
    /// use nidskalm::{EntrySet, Load, MoveGraph, NONE};
    /// use std::cmp::Ordering;
    ///
    /// let load = Load { starts: &[0, 1, 1], dependencies: &[1], hosts: &[NONE, NONE], fixed: &[0, 0] };
    /// let sets = [EntrySet::from(1), EntrySet::from(2)];
    /// let (apart, mut joined) = (MoveGraph::new(load, 3, &sets)?, MoveGraph::new(load, 3, &sets)?);
    /// assert_eq!(joined.rank(&apart), Ok(Ordering::Equal));
    /// assert!(joined.try_move(0, EntrySet::from(2))?.accepted);
    /// assert_eq!(joined.rank(&apart), Ok(Ordering::Less));
    /// assert_eq!(apart.rank(&joined), Ok(Ordering::Greater));
    /// # Ok::<(), nidskalm::Refusal>(())
    /// ```
    pub fn rank(&self, other: &MoveGraph) -> Result<Ordering, RankError> {
        if self.load() != other.load() || self.sets != other.sets {
            return Err(RankError::OtherLoad);
        }
        let reply = lent::reduced_chunk_graph_rank(&self.load(), self.sets, &self.area, &other.area);
        Refusal::check(reply.refusal, reply.value.cmp(&1)).map_err(RankError::Refused)
    }

    /// Whether the graph has a cycle now, found by a search of its own in the textbook's manner.
    ///
    /// ```
    /// use nidskalm::{EntrySet, Load, MoveGraph, NONE};
    ///
    /// let load = Load { starts: &[0, 1, 2], dependencies: &[1, 0], hosts: &[NONE, NONE], fixed: &[0, 0] };
    /// let mut graph = MoveGraph::new(load, 3, &[EntrySet::from(1), EntrySet::from(2)])?;
    /// assert!(graph.has_cycle()?);
    /// assert!(graph.try_move(0, EntrySet::from(2))?.accepted);
    /// assert!(!graph.has_cycle()?);
    /// # Ok::<(), nidskalm::Refusal>(())
    /// ```
    pub fn has_cycle(&self) -> Result<bool, Refusal> {
        let reply = lent::reduced_chunk_graph_has_cycle(&self.load(), self.sets, &self.area);
        Refusal::check(reply.refusal, reply.value == 1)
    }

    /// The chunks to fetch for an entry bit: those whose set holds it, and all they reach. Each is named by its lowest
    /// atom and stands behind everything that its edges lead to; where several can come next, the smallest set does.
    ///
    /// ```
    /// use nidskalm::{EntrySet, Load, MoveGraph};
    ///
    /// // Atoms 1 and 2 depend on atom 0 and host bits 0 and 1.
    /// let load = Load { starts: &[0, 0, 1, 2], dependencies: &[0, 0], hosts: &[1, 2], fixed: &[0; 3] };
    /// let mut graph = MoveGraph::new(load, 4, &[EntrySet::from(3), EntrySet::from(1), EntrySet::from(2)])?;
    /// assert_eq!(graph.start_order(0)?, [0, 1]);
    /// assert_eq!(graph.start_order(1)?, [0, 2]);
    /// assert!(graph.try_move(0, EntrySet::from(1))?.accepted);
    /// assert_eq!(graph.start_order(1)?, [0, 2]); // chunk 2 needs chunk 1, in which atom 0 now is
    /// assert_eq!(graph.start_order(2).unwrap_err().row(), 26);
    /// # Ok::<(), nidskalm::Refusal>(())
    /// ```
    pub fn start_order(&self, bit: u64) -> Result<Vec<u32>, Refusal> {
        let mut chunks = vec![0; self.load().atoms()];
        let reply = lent::reduced_chunk_graph_start_order(&self.load(), self.sets, &self.area, bit, &mut chunks);
        chunks.truncate(reply.value as usize);
        Refusal::check(reply.refusal, chunks)
    }

    /// All edges as they stand now, in the order of [`edge_at`](Self::edge_at). The graph may be moved on meanwhile.
    ///
    /// ```
    /// use nidskalm::{EntrySet, MoveGraph, OwnedLoad};
    ///
    /// let load = OwnedLoad::from_lists([vec![1, 1, 2], vec![2], vec![]], [None, None]);
    /// let graph = MoveGraph::owning(load, 4, &[EntrySet::from(1), EntrySet::from(2), EntrySet::from(3)])?;
    /// let mut lines = vec![];
    /// for edge in graph.edges()? {
    ///     lines.push(format!("{} imports {} {} times", edge.from, edge.to, edge.multiplicity));
    /// }
    /// assert_eq!(lines, ["{0} imports {1} 2 times", "{0} imports {0, 1} 1 times", "{1} imports {0, 1} 1 times"]);
    /// # Ok::<(), nidskalm::Refusal>(())
    /// ```
    pub fn edges(&self) -> Result<Edges, Refusal> {
        let mut edges = vec![];
        while let Some(edge) = self.edge_at(edges.len() as u64)? {
            edges.push(edge);
        }
        Ok(Edges(edges.into_iter()))
    }

    /// The chunks: each occupied set, rising, with its atoms.
    ///
    /// ```
    /// use nidskalm::{Chunk, EntrySet, MoveGraph, OwnedLoad};
    ///
    /// let load = OwnedLoad::from_lists([vec![], vec![0], vec![0]], [None, None]);
    /// let mut graph = MoveGraph::owning(load, 4, &[EntrySet::from(3), EntrySet::from(1), EntrySet::from(2)])?;
    /// graph.try_move(0, EntrySet::from(1))?;
    /// let [first, second] = &graph.chunks()?[..] else { panic!("two chunks") };
    /// assert_eq!(*first, Chunk { set: EntrySet::from(1), atoms: vec![0, 1] });
    /// assert_eq!(*second, Chunk { set: EntrySet::from(2), atoms: vec![2] });
    /// # Ok::<(), nidskalm::Refusal>(())
    /// ```
    pub fn chunks(&self) -> Result<Vec<Chunk>, Refusal> {
        let mut chunks: BTreeMap<EntrySet, Vec<u32>> = BTreeMap::new();
        for atom in (0..).take(self.load().atoms()) {
            chunks.entry(self.atom_set(atom)?).or_default().push(atom);
        }
        Ok(chunks.into_iter().map(|(set, atoms)| Chunk { set, atoms }).collect())
    }
}
