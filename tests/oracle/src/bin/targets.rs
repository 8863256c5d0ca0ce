//! Runs the original, the model and the library on the choice of a merge target. `--help` says how.
use std::collections::BTreeMap;
use std::process::ExitCode;
use std::time::Instant;

use oracle::run::Random;
use oracle::target_cases::{Call, Case, damaged, limit, made_up, planted, some_classes};
use oracle::target_model::{Decided, PLANTS};

const HELP: &str = "targets [--percent NUMBER] [--seed NUMBER] [--self-test] [--record CASES]
  default      160,000 cases of the library if linked (feature `ours`), the original and the model
  --percent    so many hundredths of the default; below 100 the counts of what decided aren't held to 1,000
  --seed       another seed than 1
  --self-test  the model with each planted bug in the library's place: every one must be found
  --record     writes that many cases with their answers (README.md: the format)";

/// Each of these decides at least so many cases of a whole run.
const AT_LEAST: u64 = 1000;

fn linked() -> Option<Call<'static>> {
    #[cfg(feature = "ours")]
    return Some(&oracle::target_cases::ours);
    #[cfg(not(feature = "ours"))]
    None
}

/// A small case, or now and then one with bits in all four numbers of the set.
fn next(random: &mut Random) -> Case {
    let (k, m) = if random.chance(1) {
        (random.pick(&[64, 65, 200, 256, 257, 300]), random.pick(&[5, 30]))
    } else {
        (random.below(6), random.below(5) + 1)
    };
    let m = if k == 0 && random.chance(20) { 0 } else { m };
    let case = made_up(random, k, m);
    let mut case = if random.chance(15) { damaged(random, &case) } else { case };
    // A quarter of the cases by classes of a bank's own.
    case.classes = random.chance(25).then(|| some_classes(random));
    case
}

fn run(library: Option<Call>, seed: u64, percent: u64) -> Result<BTreeMap<Decided, u64>, String> {
    let mut counts = BTreeMap::new();
    let mut random = Random(seed);
    for (k, m) in [(1024, 4096), (1025, 4096), (1024, 4097), (256, 4096), (1, 1)] {
        let decided = limit(k, m).check(library)?;
        let refused = k > 1024 || m > 4096;
        if refused != (decided == Decided::Refused) {
            return Err(format!("{k} kinds and {m} modules: {decided:?}"));
        }
    }
    for _ in 0..(160_000 * percent / 100).max(1) {
        *counts.entry(next(&mut random).check(library)?).or_insert(0) += 1;
    }
    Ok(counts)
}

fn compare(seed: u64, percent: u64) -> ExitCode {
    let start = Instant::now();
    match run(linked(), seed, percent) {
        Err(why) => {
            println!("targets: DISAGREEMENT: {why}");
            ExitCode::FAILURE
        }
        Ok(counts) => {
            let library = if linked().is_some() { ", the library" } else { "" };
            let cases: u64 = counts.values().sum();
            let words: Vec<String> = counts.iter().map(|(decided, count)| format!("{decided:?} {count}")).collect();
            println!("targets: the original, the model{library}: {cases} cases, seed {seed}, no disagreement");
            println!("  decided by: {} ({:.0} s)", words.join(", "), start.elapsed().as_secs_f32());
            let rare = |count: &u64| *count < AT_LEAST;
            if percent >= 100 && (counts.len() < 12 || counts.values().any(rare)) {
                println!("targets: something decided fewer than {AT_LEAST} cases");
                return ExitCode::FAILURE;
            }
            ExitCode::SUCCESS
        }
    }
}

fn self_test(seed: u64) -> ExitCode {
    let mut missed = 0;
    if let Err(why) = run(Some(&planted("")), seed, 20) {
        println!("WRONGLY FOUND: {why}");
        missed += 1;
    }
    for plant in PLANTS {
        match run(Some(&planted(plant)), seed, 20) {
            Err(_) => println!("found: {plant}"),
            Ok(_) => {
                println!("MISSED: {plant}");
                missed += 1;
            }
        }
    }
    if missed == 0 { ExitCode::SUCCESS } else { ExitCode::FAILURE }
}

/// Small cases, each kind of decision by turns.
fn record(cases: usize, seed: u64) -> ExitCode {
    let mut random = Random(seed);
    let mut lines = vec![];
    let mut counts: BTreeMap<Decided, usize> = BTreeMap::new();
    while lines.len() < cases {
        let (k, m) = if random.chance(2) {
            (random.pick(&[64, 70, 130, 256, 257]), 4)
        } else {
            (random.below(6), random.below(5) + 1)
        };
        let case = made_up(&mut random, k, m);
        let case = if random.chance(10) { damaged(&mut random, &case) } else { case };
        // The format has no lengths: only cases whose lists have the right ones.
        let lengths = case.entries.kinds.len() as u64 == case.entries.k
            && case.entries.entry_modules.len() == case.entries.kinds.len()
            && case.entries.side_effects.len() == case.entries.kinds.len()
            && case.entries.observable_exports.len() as u64 == case.entries.m;
        let whole = |lists: &oracle::target_model::Lists, count: u64| {
            lists.starts.len() as u64 == count + 1 && lists.starts.last().copied() == Some(lists.items.len() as u32)
        };
        let entries = &case.entries;
        if !lengths
            || !whole(&entries.modules, entries.k)
            || !whole(&entries.importers, entries.m)
            || !whole(&entries.dynamic_importers, entries.m)
            || !whole(&entries.reached, entries.k)
        {
            continue;
        }
        let decided = case.check(None).expect("the original agrees");
        let count = counts.entry(decided).or_insert(0);
        if *count <= cases / 11 {
            *count += 1;
            lines.push(case.numbers().iter().map(u64::to_string).collect::<Vec<_>>().join(" "));
        }
    }
    println!("{}", lines.join("\n"));
    ExitCode::SUCCESS
}

fn main() -> ExitCode {
    let arguments: Vec<String> = std::env::args().skip(1).collect();
    let has = |name: &str| arguments.iter().any(|argument| argument == name);
    let number = |name: &str| {
        let place = arguments.iter().position(|argument| argument == name)?;
        arguments.get(place + 1)?.parse::<u64>().ok()
    };
    let seed = number("--seed").unwrap_or(1);
    if has("--help") {
        println!("{HELP}");
        return ExitCode::SUCCESS;
    }
    if has("--self-test") {
        return self_test(seed);
    }
    if let Some(cases) = number("--record") {
        return record(cases as usize, seed);
    }
    compare(seed, number("--percent").unwrap_or(100))
}
