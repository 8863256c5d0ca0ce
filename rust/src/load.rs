//! What a move graph is loaded from.
use crate::NONE;

/// Atoms' dependencies, entry bits' hosts and which atoms are fixed, borrowed by every call.
#[derive(Clone, Copy, Debug, PartialEq, Eq)]
pub struct Load<'a> {
    /// One more than there are atoms: atom i depends on `dependencies[starts[i]..starts[i + 1]]`.
    pub starts: &'a [u32],
    /// Atom numbers; a repeated one counts again.
    pub dependencies: &'a [u32],
    /// For each entry bit the atom that hosts it, or [`NONE`].
    pub hosts: &'a [u32],
    /// For each atom a mark, nonzero where it is fixed: it stays in its entry set, and a move of it is refused by row 24.
    pub fixed: &'a [u32],
}

impl Load<'_> {
    /// The number of atoms.
    pub fn atoms(&self) -> usize {
        self.starts.len().saturating_sub(1)
    }
}

/// The lists of a [`Load`], owned: for a graph that owns its load ([`MoveGraph::owning`](crate::MoveGraph::owning)).
///
/// ```
/// use nidskalm::OwnedLoad;
///
/// // Atoms 1 and 2 depend on atom 0, 2 twice; entry bit 0 is hosted by atom 1, bit 1 by none. Atom 2 is fixed.
/// let load = OwnedLoad::from_lists([vec![], vec![0], vec![0, 0]], [Some(1), None]).with_fixed([false, false, true]);
/// assert_eq!(load.as_load().starts, [0, 0, 1, 3]);
/// assert_eq!(load.as_load().hosts, [1, nidskalm::NONE]);
/// assert_eq!(load.as_load().fixed, [0, 0, 1]);
/// ```
#[derive(Clone, Debug, PartialEq, Eq)]
pub struct OwnedLoad {
    starts: Vec<u32>,
    dependencies: Vec<u32>,
    hosts: Vec<u32>,
    fixed: Vec<u32>,
}

impl OwnedLoad {
    /// From one list of dependencies for each atom and a host, or none, for each entry bit. No atom is fixed.
    ///
    /// Nothing is checked here: loading a graph refuses what doesn't fit.
    ///
    /// ```
    /// use nidskalm::{EntrySet, MoveGraph, OwnedLoad};
    ///
    /// let load = OwnedLoad::from_lists([[7]], [None]);
    /// assert_eq!(MoveGraph::owning(load, 2, &[EntrySet::from(1)]).unwrap_err().row(), 5);
    /// ```
    pub fn from_lists<L: IntoIterator<Item = u32>>(
        dependencies: impl IntoIterator<Item = L>,
        hosts: impl IntoIterator<Item = Option<u32>>,
    ) -> Self {
        let (mut starts, mut all) = (vec![0], vec![]);
        for list in dependencies {
            all.extend(list);
            starts.push(u32::try_from(all.len()).unwrap_or(u32::MAX));
        }
        // A host with the number of none isn't none: it becomes another that is never an atom.
        let hosts = hosts.into_iter().map(|host| host.map_or(NONE, |atom| atom.min(NONE - 1))).collect();
        let fixed = vec![0; starts.len() - 1];
        Self { starts, dependencies: all, hosts, fixed }
    }

    /// The same with a mark for each atom: true where it is fixed. Any other number of marks is refused at loading by row 2.
    ///
    /// ```
    /// use nidskalm::{EntrySet, MoveGraph, OwnedLoad};
    ///
    /// let load = OwnedLoad::from_lists([[]], [None, None]);
    /// let mut graph = MoveGraph::owning(load.clone().with_fixed([true]), 2, &[EntrySet::from(1)])?;
    /// assert_eq!(graph.try_move(0, EntrySet::from(2)).unwrap_err().row(), 24);
    /// assert_eq!(MoveGraph::owning(load.with_fixed([]), 2, &[EntrySet::from(1)]).unwrap_err().row(), 2);
    /// # Ok::<(), nidskalm::Refusal>(())
    /// ```
    pub fn with_fixed(mut self, marks: impl IntoIterator<Item = bool>) -> Self {
        self.fixed = marks.into_iter().map(u32::from).collect();
        self
    }

    /// The lists, borrowed.
    pub fn as_load(&self) -> Load<'_> {
        Load { starts: &self.starts, dependencies: &self.dependencies, hosts: &self.hosts, fixed: &self.fixed }
    }
}

impl From<Load<'_>> for OwnedLoad {
    /// A copy of the lists.
    fn from(load: Load) -> Self {
        Self {
            starts: load.starts.into(),
            dependencies: load.dependencies.into(),
            hosts: load.hosts.into(),
            fixed: load.fixed.into(),
        }
    }
}

/// A load that a graph borrows or owns.
#[derive(Clone, Debug)]
pub(crate) enum Lists<'a> {
    Borrowed(Load<'a>),
    Owned(OwnedLoad),
}

impl Lists<'_> {
    pub(crate) fn load(&self) -> Load<'_> {
        match self {
            Self::Borrowed(load) => *load,
            Self::Owned(load) => load.as_load(),
        }
    }
}
