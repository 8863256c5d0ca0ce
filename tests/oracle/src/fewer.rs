//! Moves on a load and on the same load with some dependency entries left out, at one placement: what is accepted stays accepted.
use crate::library::Library;
use crate::moves_made_up::{Shape, random_load};
use crate::moves_model::{Load, NONE};
use crate::run::Random;
use crate::sets::{Set, words};

/// A fault to be found.
#[derive(Clone, Copy, Debug, PartialEq, Eq)]
pub enum Wrong {
    Nothing,
    /// The smaller load has hosts where the larger has none.
    OtherHosts,
    /// Entries are added in the place of left out.
    TurnedRound,
}

/// What was run.
#[derive(Clone, Copy, Debug, Default)]
pub struct Counts {
    pub loads: u64,
    pub moves: u64,
    pub accepted: u64,
    /// Rejected with all entries, and accepted without some.
    pub gained: u64,
}

/// The load without some entries, its starts cut anew.
fn left_out(random: &mut Random, load: &Load) -> Load {
    let percent = random.pick(&[20, 50, 90]);
    let mut few = Load { starts: vec![0], dependencies: vec![], ..load.clone() };
    for pair in load.starts.windows(2) {
        let entries = &load.dependencies[pair[0] as usize..pair[1] as usize];
        few.dependencies.extend(entries.iter().filter(|_| random.chance(percent)));
        few.starts.push(few.dependencies.len() as u32);
    }
    few.d = few.dependencies.len() as u64;
    few
}

/// A load with an area that holds it.
struct Held {
    load: Load,
    area: Vec<u32>,
}

impl Held {
    fn new(library: &dyn Library, load: Load, sets: &[u64]) -> Option<Self> {
        let mut area = vec![0; load.layout().length()];
        (library.move_new(&load, sets, &mut area).refusal == 0).then_some(Self { load, area })
    }

    /// Whether the move is accepted, and the area after it.
    fn tried(&self, library: &dyn Library, atom: u32, bits: &[u64]) -> (bool, Vec<u32>) {
        let mut area = self.area.clone();
        let reply = library.try_move(&self.load, &mut area, atom, bits);
        (reply.refusal == 0 && reply.accepted == 1, area)
    }
}

/// One load, thirty moves; a move that both accept is made, so that the placements stay the same.
pub fn run(library: &dyn Library, random: &mut Random, wrong: Wrong, counts: &mut Counts) -> Result<(), String> {
    let e = 2 + random.below(4);
    let a = 2 + random.below(6).min((1 << e) - 3);
    let shape = Shape { a, d: random.below(3 * a), e, n: a + 1 + random.below(3), calls: 0 };
    let (mut all, sets) = random_load(random, shape);
    let mut few = left_out(random, &all);
    match wrong {
        Wrong::Nothing => {}
        Wrong::OtherHosts => all.hosts.fill(NONE),
        Wrong::TurnedRound => std::mem::swap(&mut all, &mut few),
    }
    let flat: Vec<u64> = sets.iter().flat_map(|&set| words(set, e)).collect();
    let (Some(mut all), Some(mut few)) = (Held::new(library, all, &flat), Held::new(library, few, &flat)) else {
        return Ok(());
    };
    counts.loads += 1;
    for _ in 0..30 {
        let atom = random.below(a) as u32;
        let bits = words(Set([random.below(1 << e), 0, 0, 0]), e);
        let ((accepted, area), (still, other)) = (all.tried(library, atom, &bits), few.tried(library, atom, &bits));
        counts.moves += 1;
        counts.accepted += u64::from(accepted);
        counts.gained += u64::from(still && !accepted);
        if accepted && !still {
            return Err(format!("atom {atom} to {bits:?}: {:?}, and not with {:?}", all.load, few.load));
        }
        // A rejected move leaves the placement; its set may then be registered in one area alone.
        if accepted || random.chance(50) {
            all.area = area;
        }
        if accepted {
            few.area = other;
        }
    }
    Ok(())
}
