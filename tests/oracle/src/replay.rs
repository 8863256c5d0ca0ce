//! Replays recorded cases on a library.
use crate::layout::MergeLayout;
use crate::library::{EdgeReply, Library, MergeLoad, MoveReply, Reply, SetReply};
use crate::merges_model::Size;
use crate::moves_cases::lent_list;
use crate::moves_model::Load;
use crate::record::{BEFORE, MOVE_CASE};
use crate::sets::{Set, width};

/// Reads a recorded case number by number.
struct Reader<'a> {
    numbers: &'a [u64],
}

impl Reader<'_> {
    fn one(&mut self) -> u64 {
        let (first, rest) = self.numbers.split_first().expect("a number");
        self.numbers = rest;
        *first
    }

    fn small(&mut self) -> u32 {
        u32::try_from(self.one()).expect("a number of 32 bits")
    }

    fn list(&mut self, count: u64) -> Vec<u64> {
        (0..count).map(|_| self.one()).collect()
    }

    fn smalls(&mut self, count: u64) -> Vec<u32> {
        (0..count).map(|_| self.small()).collect()
    }

    /// A list behind its length.
    fn counted(&mut self) -> Vec<u32> {
        let count = self.one();
        self.smalls(count)
    }

    fn reply(&mut self) -> Reply {
        Reply { refusal: self.one(), value: self.one() }
    }

    fn moved(&mut self) -> MoveReply {
        MoveReply {
            refusal: self.one(),
            accepted: self.one(),
            appeared: self.one(),
            vanished: self.one(),
            reached: self.one(),
        }
    }

    fn set(&mut self, w: u64) -> Set {
        Set::from_words(&self.list(w))
    }
}

fn expect<T: PartialEq + std::fmt::Debug>(place: usize, ours: T, recorded: T) -> Result<(), String> {
    if ours == recorded { Ok(()) } else { Err(format!("call {place}: {ours:?}, recorded {recorded:?}")) }
}

/// Replays one recorded case on the library.
pub fn replay(library: &dyn Library, numbers: &[u64]) -> Result<(), String> {
    let mut reader = Reader { numbers };
    if reader.one() == MOVE_CASE { replay_moves(library, &mut reader) } else { replay_merges(library, &mut reader) }?;
    if reader.numbers.is_empty() { Ok(()) } else { Err("numbers left over".into()) }
}

fn replay_moves(library: &dyn Library, reader: &mut Reader) -> Result<(), String> {
    let (a, d, e, n) = (reader.one(), reader.one(), reader.one(), reader.one());
    let (starts, dependencies, hosts) = (reader.smalls(a + 1), reader.smalls(d), reader.smalls(e));
    let load = Load { a, d, e, n, starts, dependencies, hosts, fixed: vec![0; a as usize] };
    let w = width(e);
    let sets = reader.list(a * w);
    let mut area = vec![0; load.layout().length()];
    expect(0, library.move_new(&load, &sets, &mut area), reader.reply())?;
    for place in 1..=reader.one() as usize {
        match reader.one() {
            1 => {
                let (atom, bits) = (reader.small(), reader.list(w));
                let ours = library.try_move(&load, &mut area, atom, &bits);
                expect(place, ours, reader.moved())?;
            }
            2 => {
                let ours = library.atom_set(&load, &area, reader.small());
                let row = reader.one();
                let Set([set0, set1, set2, set3]) = reader.set(w);
                expect(place, ours, SetReply { refusal: row, set0, set1, set2, set3 })?;
            }
            3 => expect(place, library.atom_count(&load, &area, &reader.list(w)), reader.reply())?,
            4 => {
                let (from, to) = (reader.list(w), reader.list(w));
                expect(place, library.multiplicity(&load, &area, &from, &to), reader.reply())?;
            }
            5 => expect(place, library.edge_count(&load, &area), reader.reply())?,
            8 => expect(place, library.chunk_count(&load, &area), reader.reply())?,
            6 => {
                let ours = library.edge_at(&load, &area, reader.one());
                let (refusal, found) = (reader.one(), reader.one());
                let (from, to, multiplicity) = (reader.set(w), reader.set(w), reader.one());
                expect(place, ours, EdgeReply { refusal, found, ..EdgeReply::edge(from, to, multiplicity) })?;
            }
            7 => expect(place, library.has_cycle(&load, &area), reader.reply())?,
            9 => {
                let (bit, room) = (reader.one(), reader.one());
                let mut list = lent_list(room as usize);
                let ours = library.start_order(&load, &area, bit, &mut list);
                expect(place, (ours, list), (reader.reply(), reader.smalls(room)))?;
            }
            other => return Err(format!("no call {other}")),
        }
    }
    Ok(())
}

/// The library that a merge case is replayed on, with what every call is lent.
struct Merging<'a> {
    library: &'a dyn Library,
    size: Size,
    side_effects: Vec<u32>,
    area: Vec<u32>,
}

impl Merging<'_> {
    /// A call that only writes: its refusal.
    fn write(&mut self, kind: u64, reader: &mut Reader) -> Reply {
        let (library, size, area) = (self.library, self.size, &mut self.area);
        match kind {
            1 => {
                let (module, bits) = (reader.small(), reader.list(width(size.e)));
                library.init_module(size, area, module, &bits, &self.side_effects)
            }
            2 => library.add_module(size, area, reader.small(), reader.small(), &self.side_effects),
            3 => library.register(size, area, reader.small(), reader.small()),
            5 => {
                let count = reader.one();
                let (starts, dependencies) = (reader.smalls(size.m + 1), reader.smalls(count));
                library.calc(size, area, &starts, &dependencies)
            }
            _ => library.merge(size, area, reader.small(), reader.small()),
        }
    }

    fn question(&self, kind: u64, reader: &mut Reader) -> Reply {
        let (library, size, area) = (self.library, self.size, &self.area);
        match kind {
            4 => library.to_temp_idx(size, area, reader.small()),
            6 => library.warning(size, area, reader.small(), reader.small()),
            _ => library.is_reachable(size, area, reader.small(), reader.small()),
        }
    }

    fn pass(&mut self, place: usize, reader: &mut Reader) -> Result<(), String> {
        let count = reader.one();
        let (proposals, bars) = (reader.smalls(count), reader.smalls(count));
        let (mut kinds, mut chosen) = (vec![BEFORE; count as usize], vec![BEFORE; count as usize]);
        let ours = self.library.pass(self.size, &mut self.area, &proposals, &bars, &mut kinds, &mut chosen);
        expect(place, ours, reader.reply())?;
        expect(place, kinds, reader.smalls(count))?;
        expect(place, chosen, reader.smalls(count))
    }

    /// A chunk's two flags, its dependencies and its modules, as the area shows them.
    fn chunk(&self, place: usize, reader: &mut Reader) -> Result<(), String> {
        let at = self.size.layout();
        let chunk = reader.one() as usize;
        let flag = |lane| self.area[at.chunk_lane(lane, chunk)];
        expect(place, flag(MergeLayout::SIDE_EFFECTS), reader.small())?;
        expect(place, flag(MergeLayout::NEEDS_CREATION), reader.small())?;
        let members: Vec<u32> =
            (0..self.size.c as u32).filter(|&to| self.area[at.dependency(chunk, to as usize)] == 1).collect();
        expect(place, members, reader.counted())?;
        let entries = 0..self.area[at.header(MergeLayout::ENTRIES)] as usize;
        let modules: Vec<u32> = entries
            .filter(|&entry| self.area[at.entry_lane(MergeLayout::ENTRY_CHUNK, entry)] as usize == chunk)
            .map(|entry| self.area[at.entry_lane(MergeLayout::ENTRY_MODULE, entry)])
            .collect();
        expect(place, modules, reader.counted())
    }

    /// Every set's chunk, rising by set.
    fn sets(&self, place: usize, reader: &mut Reader) -> Result<(), String> {
        let at = self.size.layout();
        let count = reader.one();
        let bits: Vec<Set> = (0..count).map(|_| reader.set(width(self.size.e))).collect();
        let recorded: Vec<(Set, u32)> = bits.into_iter().zip(reader.smalls(count)).collect();
        let word = |set, word| self.area[at.set_word(word, set)];
        let mut sets: Vec<(Set, u32)> = (0..self.area[at.header(MergeLayout::SETS)] as usize)
            .map(|set| (Set::from_halves(std::array::from_fn(|i| word(set, i))), word(set, MergeLayout::WORDS)))
            .collect();
        sets.sort_unstable();
        expect(place, sets, recorded)
    }

    /// Every module's chunk.
    fn module_chunks(&self, place: usize, reader: &mut Reader) -> Result<(), String> {
        let at = self.size.layout();
        let chunk = |module| self.area[at.module_lane(MergeLayout::MODULE_CHUNK, module)];
        expect(place, (0..self.size.m as usize).map(chunk).collect(), reader.smalls(self.size.m))
    }
}

fn read_merge_load(reader: &mut Reader, size: Size) -> MergeLoad {
    let (initial, count) = (reader.one(), reader.one());
    let (module_starts, modules) = (reader.smalls(initial + 1), reader.smalls(count));
    let pairs = reader.one();
    let (sets, set_chunks) = (reader.list(pairs * width(size.e)), reader.smalls(pairs));
    let side_effects = reader.smalls(size.m);
    MergeLoad { initial, mode: 0, module_starts, modules, sets, set_chunks, side_effects }
}

fn replay_merges(library: &dyn Library, reader: &mut Reader) -> Result<(), String> {
    let size = Size { c: reader.one(), m: reader.one(), l: reader.one(), e: reader.one() };
    let load = read_merge_load(reader, size);
    let mut area = vec![0; size.layout().length()];
    expect(0, library.merge_new(size, &load, &mut area), Reply::refused(reader.one()))?;
    let mut merging = Merging { library, size, side_effects: load.side_effects, area };
    for place in 1..=reader.one() as usize {
        match reader.one() {
            kind @ (1 | 2 | 3 | 5 | 8) => {
                expect(place, merging.write(kind, reader), Reply::refused(reader.one()))?;
            }
            kind @ (4 | 6 | 7) => expect(place, merging.question(kind, reader), reader.reply())?,
            9 => merging.pass(place, reader)?,
            10 => merging.chunk(place, reader)?,
            11 => merging.sets(place, reader)?,
            12 => merging.module_chunks(place, reader)?,
            other => return Err(format!("no call {other}")),
        }
    }
    Ok(())
}
