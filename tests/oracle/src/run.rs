//! What both runs share: random numbers, counts, the shrinker.
use std::fmt::Debug;
use std::panic::{AssertUnwindSafe, catch_unwind};
use std::time::{Duration, Instant};

use crate::library::Library;

/// SplitMix64.
pub struct Random(pub u64);

impl Random {
    pub fn next(&mut self) -> u64 {
        self.0 = self.0.wrapping_add(0x9e37_79b9_7f4a_7c15);
        let mut word = self.0;
        word = (word ^ (word >> 30)).wrapping_mul(0xbf58_476d_1ce4_e5b9);
        word = (word ^ (word >> 27)).wrapping_mul(0x94d0_49bb_1331_11eb);
        word ^ (word >> 31)
    }

    /// Below `limit`; 0 where that is 0.
    pub fn below(&mut self, limit: u64) -> u64 {
        if limit == 0 { 0 } else { self.next() % limit }
    }

    pub fn index(&mut self, limit: usize) -> usize {
        self.below(limit as u64) as usize
    }

    pub fn chance(&mut self, percent: u64) -> bool {
        self.below(100) < percent
    }

    pub fn pick<T: Clone>(&mut self, items: &[T]) -> T {
        items[self.index(items.len())].clone()
    }

    /// A number near a limit of 32 bits.
    pub fn odd_number(&mut self) -> u32 {
        match self.below(6) {
            0 => u32::MAX,
            1 => u32::MAX - 1,
            2 => 1 << 31,
            3 => self.below(3) as u32,
            4 => self.below(1100) as u32,
            _ => self.next() as u32,
        }
    }
}

/// What was compared.
#[derive(Clone, Debug, Default)]
pub struct Counts {
    pub cases: u64,
    pub calls: u64,
    pub refusals: [u64; 32],
    pub acyclic: u64,
    pub cyclic: u64,
    pub accepted: u64,
    pub rejected: u64,
    /// Moves for which an empty set gave up its place.
    pub evicted: u64,
    /// Rankings of two plans of one history: before, equal, after.
    pub ranked: [u64; 3],
    pub warned: u64,
    pub unwarned: u64,
    pub merged: u64,
    pub created: u64,
    pub damaged_refused: u64,
    pub damaged_consistent: u64,
}

impl Counts {
    pub fn refused(&mut self, row: u64) {
        self.refusals[row.min(31) as usize] += 1;
    }

    pub fn print(&self, name: &str) {
        println!("{name}: {} cases, {} calls", self.cases, self.calls);
        println!("  loads acyclic {}, cyclic {}", self.acyclic, self.cyclic);
        println!("  moves accepted {}, rejected {}, with an eviction {}", self.accepted, self.rejected, self.evicted);
        let [before, equal, after] = self.ranked;
        println!("  plans before {before}, equal {equal}, after {after}");
        println!("  warnings yes {}, no {}", self.warned, self.unwarned);
        println!("  pass merged {}, created {}", self.merged, self.created);
        println!("  damaged areas refused {}, consistent {}", self.damaged_refused, self.damaged_consistent);
        let rows: Vec<String> = (1..29).map(|row| format!("{row}:{}", self.refusals[row])).collect();
        println!("  refusals by row {}", rows.join(" "));
    }
}

/// A list of calls after a loading.
pub trait Case: Clone + Debug {
    /// Runs the original, the model and, if given, the library; says where they differ.
    fn check(&self, library: Option<&dyn Library>, counts: &mut Counts) -> Result<(), String>;
    /// Cases that are smaller in one respect, made one at a time: a large case has thousands.
    fn smaller(&self) -> Box<dyn Iterator<Item = Self> + '_>;
}

/// A disagreement, as small as it was found.
#[derive(Debug)]
pub struct Disagreement {
    pub what: String,
    pub input: String,
}

/// Numbers behind every lent area and answer list, not lent: a call may not write there either.
pub const GUARD: usize = 16;

/// A panic, as by one of the original's assertions, is a disagreement too.
fn checked<C: Case>(case: &C, library: Option<&dyn Library>, counts: &mut Counts) -> Result<(), String> {
    catch_unwind(AssertUnwindSafe(|| case.check(library, counts))).unwrap_or_else(|_| Err("panic".into()))
}

/// Runs a case; on a disagreement looks for a smaller one.
pub fn run<C: Case>(case: &C, library: Option<&dyn Library>, counts: &mut Counts) -> Result<(), Disagreement> {
    let Err(mut what) = checked(case, library, counts) else { return Ok(()) };
    let mut smallest = case.clone();
    let end = Instant::now() + Duration::from_secs(10);
    loop {
        let failing = smallest.smaller().take_while(|_| Instant::now() <= end).find_map(|candidate| {
            let why = checked(&candidate, library, &mut Counts::default()).err()?;
            Some((candidate, why))
        });
        let Some(found) = failing else { break };
        (smallest, what) = found;
    }
    Err(Disagreement { what, input: format!("{smallest:?}") })
}

/// Lists without a part: halves first, then single items.
pub fn shorter<T: Clone>(list: &[T]) -> impl Iterator<Item = Vec<T>> {
    let sizes = std::iter::successors(Some(list.len()), |size| Some(size / 2)).take_while(|&size| size > 0);
    sizes.flat_map(move |size| {
        (0..list.len()).step_by(size).rev().map(move |start| {
            let end = (start + size).min(list.len());
            [&list[..start], &list[end..]].concat()
        })
    })
}

/// Says where two areas first differ.
pub fn same_area(what: &str, ours: &[u32], expected: &[u32]) -> Result<(), String> {
    match ours.iter().zip(expected).position(|(left, right)| left != right) {
        None => Ok(()),
        Some(cell) => Err(format!("{what}: area cell {cell} is {}, expected {}", ours[cell], expected[cell])),
    }
}

/// Says how two answers differ.
pub fn same<T: PartialEq + Debug>(what: &str, one: &T, expected: &T) -> Result<(), String> {
    if one == expected { Ok(()) } else { Err(format!("{what}: {one:?}, expected {expected:?}")) }
}
