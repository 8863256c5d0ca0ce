//! Where each field lies in the two lent areas (docs/LAYOUT.md). Nothing else knows an offset.

/// The move area: edges N×N, 24 header numbers, 24 lanes of N, of A, of D, of E.
#[derive(Clone, Copy, Debug)]
pub struct MoveLayout {
    pub a: usize,
    pub d: usize,
    pub e: usize,
    pub n: usize,
}

impl MoveLayout {
    /// Header numbers.
    pub const REGISTERED: usize = 0;
    pub const COUNTER: usize = 1;
    pub const ACYCLIC: usize = 2;
    pub const OCCUPIED: usize = 3;
    pub const DISTINCT: usize = 4;
    /// Node lanes: words 0 to 7 of the set, then these.
    pub const COUNT: usize = 8;
    pub const MARK: usize = 9;
    pub const COMPONENT: usize = 10;
    /// Atom lanes.
    pub const NODE: usize = 0;
    pub const FIXED: usize = 1;

    pub fn length(self) -> usize {
        self.n * self.n + 24 * (self.a + self.n + self.d + self.e + 1)
    }

    pub fn edge(self, from: usize, to: usize) -> usize {
        from * self.n + to
    }

    pub fn header(self, number: usize) -> usize {
        self.n * self.n + number
    }

    pub fn node_lane(self, lane: usize, node: usize) -> usize {
        self.n * self.n + 24 + lane * self.n + node
    }

    pub fn atom_lane(self, lane: usize, atom: usize) -> usize {
        self.n * self.n + 24 + 24 * self.n + lane * self.a + atom
    }
}

/// The merge area: dependency flags C×C, 32 header numbers, 32 lanes of C, of M, of L.
#[derive(Clone, Copy, Debug)]
pub struct MergeLayout {
    pub c: usize,
    pub m: usize,
    pub l: usize,
}

impl MergeLayout {
    /// Header numbers.
    pub const INITIAL: usize = 0;
    pub const MADE: usize = 1;
    pub const CREATED: usize = 2;
    pub const SETS: usize = 3;
    pub const ENTRIES: usize = 4;
    pub const MODE: usize = 5;
    /// Words of each set of the table of 2C.
    pub const WORDS: usize = 8;
    /// Chunk lanes: 0 to 15 the words of the sets, set by set, 16 and 17 their chunks, then these.
    pub const SIDE_EFFECTS: usize = 18;
    pub const NEEDS_CREATION: usize = 19;
    pub const KEY: usize = 20;
    pub const MERGED_INTO: usize = 21;
    /// Module lane.
    pub const MODULE_CHUNK: usize = 0;
    /// Entry lanes.
    pub const ENTRY_CHUNK: usize = 0;
    pub const ENTRY_MODULE: usize = 1;

    pub fn length(self) -> usize {
        self.c * self.c + 32 * (self.c + self.m + self.l + 1)
    }

    /// Whether `from` depends on `to`.
    pub fn dependency(self, from: usize, to: usize) -> usize {
        from * self.c + to
    }

    pub fn header(self, number: usize) -> usize {
        self.c * self.c + number
    }

    pub fn chunk_lane(self, lane: usize, chunk: usize) -> usize {
        self.c * self.c + 32 + lane * self.c + chunk
    }

    /// Word 0 to 7 of a set; word 8 is the set's chunk.
    pub fn set_word(self, word: usize, set: usize) -> usize {
        if word < Self::WORDS { self.chunk_lane(0, Self::WORDS * set + word) } else { self.chunk_lane(16, set) }
    }

    pub fn module_lane(self, lane: usize, module: usize) -> usize {
        self.c * self.c + 32 + 32 * self.c + lane * self.m + module
    }

    pub fn entry_lane(self, lane: usize, entry: usize) -> usize {
        self.c * self.c + 32 + 32 * self.c + 32 * self.m + lane * self.l + entry
    }
}
