//! Runs the original, the model and the library on the same inputs. `--help` says how.
use std::process::ExitCode;
use std::time::Instant;

use oracle::inputs::{Amount, everything, merges};
use oracle::library::Library;
use oracle::original;
use oracle::stand_in_library::{HARMLESS, PLANTS, StandIn};
use oracle::{record, replay};

const HELP: &str =
    "oracle [--long | --percent NUMBER] [--seed NUMBER] [--stand-in] [--self-test] [--record CASES] [--replay FILE]
  default      the library if linked (feature `ours`), the original and the model: about a minute
  --long       twenty times as many made-up cases
  --percent    so many hundredths of the default
  --seed       another seed than 1
  --stand-in   the stand-in library in the place of the linked one
  --self-test  the stand-in library without a bug must pass, with each planted bug must fail
  --record     writes that many cases with the model's answers, where the original agrees (README.md: the format)
  --replay     replays recorded cases on the library";

fn self_test(amount: Amount) -> ExitCode {
    let mut missed = 0;
    for plant in PLANTS {
        let start = Instant::now();
        let harmless = plant == "none" || plant == HARMLESS;
        let amount = if harmless { amount } else { Amount { percent: 10, ..amount } };
        let library: Option<&dyn Library> = Some(&StandIn { plant });
        // The merge graph's bugs need no move graph runs.
        let place = |name: &str| PLANTS.iter().position(|&other| other == name);
        let of_merges = plant == HARMLESS || place(plant) >= place("needs_creation cleared");
        let found = if of_merges { merges(library, amount).map(drop) } else { everything(library, amount).map(drop) };
        let seconds = start.elapsed().as_secs_f32();
        match (harmless, found) {
            (true, Ok(())) => println!("passed ({seconds:.1} s): {plant}"),
            (true, Err(found)) => {
                println!("WRONGLY FOUND: {plant}: {}\n  {}", found.what, found.input);
                missed += 1;
            }
            (false, Ok(())) => {
                println!("MISSED: {plant}");
                missed += 1;
            }
            (false, Err(found)) => {
                println!("found ({seconds:.1} s): {plant}: {}\n  {}", found.what, found.input);
            }
        }
    }
    if missed == 0 { ExitCode::SUCCESS } else { ExitCode::FAILURE }
}

fn replay_file(library: Option<&dyn Library>, file: Option<&String>) -> ExitCode {
    let (Some(library), Some(file)) = (library, file) else {
        println!("--replay needs a file, and a library");
        return ExitCode::FAILURE;
    };
    let text = std::fs::read_to_string(file).expect("a readable file");
    let mut failed = 0;
    for (place, line) in text.lines().enumerate() {
        let numbers: Vec<u64> = line.split(' ').map(|word| word.parse().expect("a number")).collect();
        if let Err(why) = replay::replay(library, &numbers) {
            println!("case {place}: {why}");
            failed += 1;
        }
    }
    println!("{} recorded cases, {failed} failed", text.lines().count());
    if failed == 0 { ExitCode::SUCCESS } else { ExitCode::FAILURE }
}

fn linked() -> Option<&'static dyn Library> {
    #[cfg(feature = "ours")]
    return Some(&oracle::library::Ours);
    #[cfg(not(feature = "ours"))]
    None
}

fn print_record(cases: usize, seed: u64) -> ExitCode {
    if !original::PRESENT {
        eprintln!("--record needs the original");
        return ExitCode::FAILURE;
    }
    for line in record::sample(cases, seed) {
        let line: Vec<String> = line.iter().map(u64::to_string).collect();
        println!("{}", line.join(" "));
    }
    ExitCode::SUCCESS
}

fn compare(library: Option<&dyn Library>, name: &str, amount: Amount) -> ExitCode {
    match (original::PRESENT, library) {
        (true, Some(_)) => println!("comparing the original, the model and the {name} library"),
        (true, None) => println!("comparing the original and the model; no library is linked"),
        (false, Some(_)) => println!("comparing the model and the {name} library; THE ORIGINAL IS NOT THERE"),
        (false, None) => {
            println!("NOTHING TO COMPARE: neither the original nor a library is there");
            return ExitCode::FAILURE;
        }
    }
    let start = Instant::now();
    match everything(library, amount) {
        Ok([small, moves, merges]) => {
            small.print("every small load");
            moves.print("move graph");
            merges.print("merge graph");
            println!("no disagreement, seed {}, {:.0} s", amount.seed, start.elapsed().as_secs_f32());
            ExitCode::SUCCESS
        }
        Err(found) => {
            println!("DISAGREEMENT: {}\nsmallest input found: {}", found.what, found.input);
            ExitCode::FAILURE
        }
    }
}

fn main() -> ExitCode {
    let arguments: Vec<String> = std::env::args().skip(1).collect();
    let has = |name: &str| arguments.iter().any(|argument| argument == name);
    let after = |name: &str| {
        let place = arguments.iter().position(|argument| argument == name)?;
        arguments.get(place + 1)
    };
    let number = |name: &str| after(name)?.parse::<u64>().ok();
    if has("--help") {
        println!("{HELP}");
        return ExitCode::SUCCESS;
    }
    let percent = number("--percent").unwrap_or(if has("--long") { 2000 } else { 100 });
    let amount = Amount { seed: number("--seed").unwrap_or(1), percent };
    if has("--self-test") {
        return self_test(Amount { percent: 20, ..amount });
    }
    if let Some(cases) = number("--record") {
        return print_record(cases as usize, amount.seed);
    }
    let stand_in = StandIn { plant: "none" };
    let (library, name) =
        if has("--stand-in") { (Some(&stand_in as &dyn Library), "stand-in") } else { (linked(), "linked") };
    if has("--replay") {
        return replay_file(library, after("--replay"));
    }
    compare(library, name, amount)
}
