//! Runs passes from chunks whose dependencies close no loop, and searches for one after every candidate; and moves with
//! dependency entries left out. `--help` says how.
use std::path::Path;
use std::process::ExitCode;
use std::time::Instant;

use oracle::fewer::{self, Wrong};
use oracle::library::Library;
use oracle::loop_loads::loads;
use oracle::loops::{Chunks, Did, Lent, Start, closes_loop, pass};
use oracle::merges_model::Size;
use oracle::run::Random;
use oracle::stand_in_library::StandIn;

const HELP: &str = "loops [--passes NUMBER] [--real NUMBER] [--seed NUMBER] [--loads DIRECTORY] [--self-test]
  default      passes of the library (feature `ours`; else of the stand-in) where merged chunks stand for their target, and the same
               passes in the old mode
  --passes     so many, 100,000 if not said
  --real       so many of them from the loads of a directory, if it is there, 20,000 if not said; the others are made up
  --seed       another seed than 1
  --loads      another directory than ../shared/loads
  --self-test  the old mode in the mode's place, an ignored bar, other hosts, and entries added in the place of left out must be found";

/// What was run, from real loads or made up.
#[derive(Clone, Copy, Debug, Default)]
struct Counts {
    passes: u64,
    merged: u64,
    created: u64,
    warned: u64,
    second: u64,
    /// Passes of the old mode that end in a loop, and that have one after some candidate.
    old_ends: u64,
    old_some: u64,
    /// Passes of the old mode in which a merge is warned of that would close no loop.
    old_needless: u64,
}

/// One input: a start's areas in both modes, and a pass's lists.
struct Input<'a> {
    chunks: &'a Chunks,
    size: Size,
    /// Where merged chunks stand for their target, and where they don't.
    area: &'a [u32],
    old_area: &'a [u32],
}

impl Counts {
    fn add(&mut self, did: Did) {
        self.merged += did.merged;
        self.created += did.created;
        self.warned += did.warned;
    }

    /// Both modes on one input, and a second pass in the mode, of those that weren't merged.
    fn run(&mut self, library: &dyn Library, random: &mut Random, input: &Input) -> Result<(), String> {
        let Input { chunks, size, .. } = *input;
        let all: Vec<usize> = (chunks.initial..chunks.sets.len()).collect();
        let lent = Lent::made_up(random, chunks, &all);
        let fault = |did: Did, what: &str| {
            let why = if did.looped { "a loop after a candidate" } else { "warned of without need" };
            if did.looped || did.needless { Err(format!("{what}: {why}: {chunks:?} {lent:?}")) } else { Ok(()) }
        };

        let (mut area, mut into) = (input.area.to_vec(), vec![None; chunks.sets.len()]);
        let did = pass(library, (size, &mut area), chunks, &all, &lent, &mut into)?;
        fault(did, "first pass")?;
        self.passes += 1;
        self.add(did);

        let left: Vec<usize> = all.iter().copied().filter(|&chunk| into[chunk].is_none()).collect();
        // A number is left for each candidate only where as many were merged as are created again.
        if 2 * left.len() <= all.len() {
            let lent = Lent::made_up(random, chunks, &left);
            fault(pass(library, (size, &mut area), chunks, &left, &lent, &mut into)?, "second pass")?;
            self.second += 1;
        }

        let (mut area, mut into) = (input.old_area.to_vec(), vec![None; chunks.sets.len()]);
        let did = pass(library, (size, &mut area), chunks, &all, &lent, &mut into)?;
        self.old_ends += u64::from(did.ends_looped);
        self.old_some += u64::from(did.looped);
        self.old_needless += u64::from(did.needless);
        Ok(())
    }

    fn print(&self, what: &str) {
        let Self { passes, merged, created, warned, second, old_ends, old_some, old_needless } = self;
        println!(
            "  {what}: {passes} passes, {second} second ones; {merged} merged, {created} created, {warned} of them warned of"
        );
        println!("    no loop after any candidate, and each warned merge would close one");
        println!(
            "    the old mode on the same inputs: {old_ends} end in a loop, {old_some} have one after some candidate,"
        );
        println!("    {old_needless} warn where none would be closed");
    }

    /// A search that finds nothing in the old mode, or a pass that does nothing, would show nothing.
    fn shows(&self) -> bool {
        self.old_ends > 0 && self.old_needless > 0 && self.warned > 0 && self.merged >= self.passes / 2
    }
}

/// How much is run, and how.
#[derive(Clone, Copy)]
struct Amount {
    seed: u64,
    passes: u64,
    real: u64,
    /// The mode that stands in the mode's place.
    mode: u32,
}

fn run(library: &dyn Library, amount: Amount, directory: &Path) -> Result<[Counts; 2], String> {
    let [mut real, mut made_up] = [Counts::default(); 2];
    let starts = loads(directory)?;
    let share = amount.real.checked_div(starts.len() as u64).unwrap_or(0);
    let mut random = Random(amount.seed);
    for (name, start) in &starts {
        let chunks = start.chunks();
        let ((size, area), (_, old_area)) = (start.area(library, amount.mode)?, start.area(library, 0)?);
        for _ in 0..share {
            let input = Input { chunks: &chunks, size, area: &area, old_area: &old_area };
            real.run(library, &mut random, &input).map_err(|why| format!("{name}: {why}"))?;
        }
    }
    let mut random = Random(amount.seed ^ 0x6c6f_6f70);
    for _ in real.passes..amount.passes {
        let start = Start::made_up(&mut random);
        let chunks = start.chunks();
        if closes_loop(&chunks.edges, &vec![None; chunks.sets.len()]) {
            return Err(format!("a loop before the pass: {start:?}"));
        }
        let ((size, area), (_, old_area)) = (start.area(library, amount.mode)?, start.area(library, 0)?);
        made_up.run(library, &mut random, &Input { chunks: &chunks, size, area: &area, old_area: &old_area })?;
    }
    Ok([real, made_up])
}

/// A load for every ten passes, with moves on it and on the load without some of its entries.
fn leave_out(library: &dyn Library, amount: Amount, wrong: Wrong) -> Result<fewer::Counts, String> {
    let mut random = Random(amount.seed ^ 0x6665_7765);
    let mut counts = fewer::Counts::default();
    for _ in 0..amount.passes / 10 {
        fewer::run(library, &mut random, wrong, &mut counts)?;
    }
    Ok(counts)
}

fn compare_fewer(library: &dyn Library, amount: Amount) -> ExitCode {
    match leave_out(library, amount, Wrong::Nothing) {
        Err(why) => {
            println!("entries left out: FOUND: {why}");
            ExitCode::FAILURE
        }
        Ok(counts) => {
            let fewer::Counts { loads, moves, accepted, gained } = counts;
            println!(
                "entries left out: {loads} loads, {moves} moves; {accepted} accepted, and so without some entries; {gained} only then"
            );
            if amount.passes >= 1000 && (accepted == 0 || gained == 0) {
                println!("entries left out: nothing was accepted, or nothing more without some entries");
                return ExitCode::FAILURE;
            }
            ExitCode::SUCCESS
        }
    }
}

fn compare(library: &dyn Library, name: &str, amount: Amount, directory: &Path) -> ExitCode {
    let start = Instant::now();
    match run(library, amount, directory) {
        Err(why) => {
            println!("loops: FOUND: {why}");
            ExitCode::FAILURE
        }
        Ok([real, made_up]) => {
            let passes = real.passes + made_up.passes;
            println!(
                "loops: the {name} library, {passes} passes, seed {}, {:.0} s",
                amount.seed,
                start.elapsed().as_secs_f32()
            );
            if real.passes == 0 {
                println!("  no real loads at {}", directory.display())
            } else {
                real.print("real loads")
            }
            made_up.print("made up");
            if passes >= 1000 && !made_up.shows() {
                println!("loops: the old mode shows no fault, nothing was warned of, or hardly anything was merged");
                return ExitCode::FAILURE;
            }
            compare_fewer(library, amount)
        }
    }
}

/// The run must find these, and nothing wrong without them.
fn self_test(library: &dyn Library, amount: Amount) -> ExitCode {
    let amount = Amount { passes: 2_000, real: 0, ..amount };
    let nowhere = Path::new("");
    let old = Amount { mode: 0, ..amount };
    let runs: [(&str, &dyn Library, Amount, bool); 3] = [
        ("the library", library, amount, false),
        ("the old mode in the mode's place", library, old, true),
        ("bar ignored", &StandIn { plant: "bar ignored" }, amount, true),
    ];
    // Two chunks of a loop, merged into one, and the loop of docs/DIFFERENCES.md through a chunk that was merged away.
    let graphs = [
        (closes_loop(&[(0, 1), (1, 0)], &[None, None]), true),
        (closes_loop(&[(0, 1), (1, 0)], &[None, Some(0)]), false),
        (closes_loop(&[(0, 1), (3, 2)], &[None, None, Some(0), None]), false),
        (closes_loop(&[(0, 1), (3, 2)], &[None, None, Some(0), Some(1)]), true),
    ];
    let mut missed = graphs.iter().filter(|(found, there)| found != there).count();
    for wrong in [Wrong::Nothing, Wrong::OtherHosts, Wrong::TurnedRound] {
        let right = leave_out(library, amount, wrong).is_err() == (wrong != Wrong::Nothing);
        println!("{}: entries left out, {wrong:?}", if right { "as it should be" } else { "MISSED OR WRONGLY FOUND" });
        missed += usize::from(!right);
    }
    for (what, library, amount, wrong) in runs {
        let found = run(library, amount, nowhere).is_err();
        println!(
            "{}: {what}",
            if found == wrong { if wrong { "found" } else { "passed" } } else { "MISSED OR WRONGLY FOUND" }
        );
        missed += usize::from(found != wrong);
    }
    if missed == 0 { ExitCode::SUCCESS } else { ExitCode::FAILURE }
}

fn main() -> ExitCode {
    let arguments: Vec<String> = std::env::args().skip(1).collect();
    let has = |name: &str| arguments.iter().any(|argument| argument == name);
    let after = |name: &str| {
        let place = arguments.iter().position(|argument| argument == name)?;
        arguments.get(place + 1)
    };
    let number = |name: &str| after(name)?.parse::<u64>().ok();
    if has("--help") {
        println!("{HELP}");
        return ExitCode::SUCCESS;
    }
    #[cfg(feature = "ours")]
    let (library, name): (&dyn Library, &str) = (&oracle::library::Ours, "linked");
    #[cfg(not(feature = "ours"))]
    let (library, name): (&dyn Library, &str) = (&StandIn { plant: "none" }, "stand-in");
    let amount = Amount {
        seed: number("--seed").unwrap_or(1),
        passes: number("--passes").unwrap_or(100_000),
        real: number("--real").unwrap_or(20_000),
        mode: 1,
    };
    if has("--self-test") {
        return self_test(library, amount);
    }
    let directory = after("--loads").map_or("../shared/loads", String::as_str);
    compare(library, name, amount, Path::new(directory))
}
