//! All inputs of a run, in their order.
use crate::library::Library;
use crate::limits;
use crate::merges_made_up;
use crate::merges_model::{Size, NONE};
use crate::moves_cases::{Damage, MoveCall, MoveCase};
use crate::moves_made_up::{self, Shape};
use crate::moves_real;
use crate::run::{run, Case, Counts, Disagreement, Random};

/// How much of everything is run.
#[derive(Clone, Copy)]
pub struct Amount {
    pub seed: u64,
    /// Multiplies the number of made-up cases, in hundredths.
    pub percent: u64,
}

impl Amount {
    fn times(self, count: u64) -> u64 {
        (count * self.percent / 100).max(1)
    }
}

type Found = Result<(), Disagreement>;

/// Runs cases and counts.
struct Runner<'a> {
    library: Option<&'a dyn Library>,
    amount: Amount,
    counts: Counts,
}

impl Runner<'_> {
    fn run<C: Case>(&mut self, case: &C) -> Found {
        run(case, self.library, &mut self.counts)
    }

    /// A small load with each first move, two made-up ones, and questions between.
    fn every_first_move(&mut self, random: &mut Random, case: &MoveCase) -> Found {
        let a = case.load.a;
        for atom in 0..a as u32 {
            for set in 0..4 {
                let second = MoveCall::Move { atom: random.below(a) as u32, bits: vec![random.below(4)] };
                let third = MoveCall::Move { atom: random.below(a) as u32, bits: vec![random.below(4)] };
                let edge = MoveCall::EdgeAt { k: random.below(3) };
                let order = MoveCall::StartOrder { bit: random.below(2), room: a as usize };
                let first = MoveCall::Move { atom, bits: vec![set] };
                let calls =
                    [first, second, MoveCall::EdgeCount, edge, order, MoveCall::HasCycle, third, MoveCall::HasCycle];
                let calls = calls.into_iter().map(|call| (call, Damage::default())).collect();
                self.run(&MoveCase { calls, ..case.clone() })?;
            }
        }
        let calls = vec![(MoveCall::HasCycle, Damage::default())];
        if a == 0 {
            self.run(&MoveCase { calls, ..case.clone() })
        } else {
            Ok(())
        }
    }

    fn every_small(&mut self) -> Found {
        let mut random = Random(self.amount.seed);
        let mut found = Ok(());
        for a in 0..4 {
            moves_made_up::every_small_load(a, &mut |case| {
                // Less than a whole run takes a part of the largest size.
                if found.is_err() || (a == 3 && random.below(100) >= self.amount.percent) {
                    return;
                }
                found = self.every_first_move(&mut random, &case);
            });
        }
        found
    }

    fn small_moves(&mut self, random: &mut Random) -> Found {
        for round in 0..self.amount.times(30_000) {
            let e = 1 + random.below(4);
            let a = random.below(1 << e) + 1;
            let a = if random.chance(3) { 0 } else { a.min(7) };
            let d = random.below(2 * a + 2);
            let n = a + 1 + random.below(4);
            let calls = 1 + random.index(12);
            let shape = Shape { a, d, e, n, calls };
            self.run(&moves_made_up::random_case(random, shape, if round % 2 == 0 { 0 } else { 30 }))?;
            if round % 4 == 0 {
                self.run(&moves_made_up::refused_loading(random, shape))?;
                self.run(&moves_made_up::crafted_case(random, shape, 10))?;
            }
        }
        Ok(())
    }

    fn long_moves(&mut self, random: &mut Random) -> Found {
        for _ in 0..self.amount.times(40) {
            let a = 8 + random.below(40);
            let (d, e, n) = (random.below(3 * a), 4 + random.below(90), a + 1 + random.below(60));
            self.run(&moves_made_up::random_case(random, Shape { a, d, e, n, calls: 300 }, 4))?;
        }
        Ok(())
    }

    /// A server up for a month: thousands of moves to new sets with N = A + 1, none refused for want of room.
    fn month_of_moves(&mut self, random: &mut Random) -> Found {
        for a in [3, 17, 40] {
            let (d, e) = (random.below(2 * a), 12 + random.below(60));
            let before = self.counts.evicted;
            self.run(&moves_made_up::month(random, Shape { a, d, e, n: a + 1, calls: 10_000 }))?;
            let evicted = self.counts.evicted - before;
            if evicted < 2_000 {
                let what = format!("a month of moves has {evicted} evictions, expected thousands");
                return Err(Disagreement { what, input: format!("{a} atoms") });
            }
        }
        Ok(())
    }

    /// Real script, with moves as a planner makes them.
    fn real_moves(&mut self) -> Found {
        for case in moves_real::cases(&mut Random(self.amount.seed ^ 0x7265_616c), self.amount.percent) {
            self.run(&case)?;
        }
        Ok(())
    }

    fn moves(&mut self) -> Found {
        let mut random = Random(self.amount.seed ^ 0x6d6f_7665);
        self.small_moves(&mut random)?;
        self.long_moves(&mut random)?;
        self.month_of_moves(&mut random)?;
        self.real_moves()?;
        for _ in 0..self.amount.times(1) {
            for shape in move_shapes(&mut random) {
                self.run(&moves_made_up::random_case(&mut random, shape, 12))?;
                self.run(&moves_made_up::refused_loading(&mut random, shape))?;
            }
        }
        limits::moves(self.library, &mut self.counts)
    }

    fn small_merges(&mut self, random: &mut Random) -> Found {
        for round in 0..self.amount.times(20_000) {
            let (c, m, l) = (1 + random.below(7), random.below(8), random.below(14));
            let e = random.below(5);
            let calls = 1 + random.index(25);
            let shape = merge_shape(random, Size { c, m, l, e }, calls);
            self.run(&merges_made_up::random_case(random, shape, if round % 2 == 0 { 0 } else { 25 }))?;
            if round % 4 == 0 {
                self.run(&merges_made_up::refused_loading(random, shape))?;
                self.run(&merges_made_up::crafted_case(random, shape, 10))?;
            }
        }
        Ok(())
    }

    /// Merged chunks that stand for their target: against the model alone.
    fn standing_merges(&mut self, random: &mut Random) -> Found {
        for round in 0..self.amount.times(10_000) {
            let (c, m, l) = (1 + random.below(8), random.below(8), random.below(14));
            let (e, calls) = (random.below(5), 1 + random.index(25));
            let shape = merge_shape(random, Size { c, m, l, e }, calls);
            let shape = merges_made_up::Shape { mode: random.pick(&[1, 2, NONE]), ..shape };
            self.run(&merges_made_up::random_case(random, shape, if round % 2 == 0 { 0 } else { 25 }))?;
            self.run(&merges_made_up::crafted_case(random, shape, 10))?;
        }
        for _ in 0..self.amount.times(15) {
            let (c, m, l) = (8 + random.below(40), 8 + random.below(60), 20 + random.below(300));
            let shape = merges_made_up::Shape { mode: 1, ..merge_shape(random, Size { c, m, l, e: 65 }, 200) };
            self.run(&merges_made_up::random_case(random, shape, 4))?;
            self.run(&merges_made_up::crafted_case(random, shape, 4))?;
        }
        Ok(())
    }

    fn long_merges(&mut self, random: &mut Random) -> Found {
        for _ in 0..self.amount.times(30) {
            let (c, m, l) = (8 + random.below(40), 8 + random.below(60), 20 + random.below(300));
            let e = random.pick(&[8, 63, 64, 65, 130, 255, 256]);
            let shape = merge_shape(random, Size { c, m, l, e }, 200);
            self.run(&merges_made_up::random_case(random, shape, 4))?;
        }
        Ok(())
    }

    fn merges(&mut self) -> Found {
        let mut random = Random(self.amount.seed ^ 0x6d65_7267);
        self.small_merges(&mut random)?;
        self.long_merges(&mut random)?;
        self.standing_merges(&mut Random(self.amount.seed ^ 0x7374_616e))?;
        for _ in 0..self.amount.times(1) {
            for (c, m, l, e) in MERGE_SIZES {
                let shape = merge_shape(&mut random, Size { c, m, l, e }, 12);
                self.run(&merges_made_up::random_case(&mut random, shape, 12))?;
                self.run(&merges_made_up::refused_loading(&mut random, shape))?;
            }
        }
        // Every small graph, in a short run a part of them.
        let mut found = Ok(());
        merges_made_up::every_small_graph(&mut |case| {
            if found.is_ok() && random.below(100) < self.amount.percent {
                found = self.run(&case);
            }
        });
        found?;
        limits::merges(self.library, &mut self.counts)
    }
}

/// Sizes around every limit of the move graph.
fn move_shapes(random: &mut Random) -> Vec<Shape> {
    let mut shapes = vec![];
    for a in [0, 1, 2, 47, 48, 49, 511, 512] {
        for e in [0, 1, 2, 63, 64, 65, 127, 128, 129, 255, 256] {
            // As many distinct sets as there are atoms, or a refusal 8.
            if a > 2 && e < 2 {
                continue;
            }
            let n = random.pick(&[a + 1, a + 1, a + 2, (a + 40).min(1024)]);
            let d = random.pick(&[0, 1, a, 2 * a, 4 * a]);
            shapes.push(Shape { a, d, e, n, calls: if a > 100 { 6 } else { 20 } });
        }
    }
    shapes.push(Shape { a: 512, d: 8192, e: 256, n: 1024, calls: 5 });
    shapes.push(Shape { a: 512, d: 8192, e: 64, n: 513, calls: 10 });
    shapes.push(Shape { a: 512, d: 0, e: 256, n: 513, calls: 6 });
    shapes.push(Shape { a: 1, d: 0, e: 256, n: 1024, calls: 5 });
    shapes.push(Shape { a: 40, d: 8192, e: 16, n: 60, calls: 20 });
    shapes.push(Shape { a: 2, d: 8192, e: 3, n: 4, calls: 10 });
    shapes
}

/// C, M, L and E around limits of the merge graph.
const MERGE_SIZES: [(u64, u64, u64, u64); 7] = [
    (1, 0, 0, 0),
    (1, 1, 1, 1),
    (1023, 4096, 8192, 256),
    (1024, 4095, 8191, 255),
    (1024, 4096, 8192, 64),
    (64, 4096, 100, 65),
    (1024, 10, 8192, 63),
];

fn merge_shape(random: &mut Random, size: Size, calls: usize) -> merges_made_up::Shape {
    let initial = random.below(size.c + 1).min(size.c / 2 + 1);
    let pairs = random.below(size.c + 1).min(2 * size.c / 3 + 1);
    merges_made_up::Shape { size, initial, mode: 0, pairs, calls }
}

/// The merge graph's inputs alone.
pub fn merges(library: Option<&dyn Library>, amount: Amount) -> Result<Counts, Disagreement> {
    let mut runner = Runner { library, amount, counts: Counts::default() };
    runner.merges()?;
    Ok(runner.counts)
}

/// Everything, with the counts of each part.
pub fn everything(library: Option<&dyn Library>, amount: Amount) -> Result<[Counts; 3], Disagreement> {
    let runner = || Runner { library, amount, counts: Counts::default() };
    let (mut small, mut moves) = (runner(), runner());
    small.every_small()?;
    moves.moves()?;
    Ok([small.counts, moves.counts, merges(library, amount)?])
}
