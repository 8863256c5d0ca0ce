//! Times the original and the library on the same inputs, in one run, and prints Markdown tables. README.md says how.
mod merges;
mod moves;
mod targets;

use std::time::Instant;

use oracle::library::Library;

/// Runs of which, for each call, the best counts.
const RUNS: usize = 7;

/// What reading the clock costs.
fn clock() -> f64 {
    (0..1000).map(|_| Instant::now().elapsed().as_nanos()).min().unwrap() as f64
}

/// Mean over `calls` calls of each one's best time in nanoseconds; `run` makes call k on what `prepare` gives.
fn best<T>(calls: usize, mut prepare: impl FnMut() -> T, mut run: impl FnMut(&mut T, usize)) -> f64 {
    let mut best = vec![f64::INFINITY; calls];
    for _ in 0..RUNS {
        let mut input = prepare();
        for (k, best) in best.iter_mut().enumerate() {
            let start = Instant::now();
            run(&mut input, k);
            *best = best.min(start.elapsed().as_nanos() as f64);
        }
        std::hint::black_box(&input);
    }
    best.iter().sum::<f64>() / calls as f64 - clock()
}

/// A time with three figures or so.
fn time(nanoseconds: f64) -> String {
    match nanoseconds {
        t if t < 1e4 => format!("{t:.0} ns"),
        t if t < 1e6 => format!("{:.1} µs", t / 1e3),
        t => format!("{:.2} ms", t / 1e6),
    }
}

fn ratio(ours: f64, original: f64) -> String {
    format!("{:.2}", ours / original)
}

fn main() {
    #[cfg(feature = "ours")]
    let library: Option<&dyn Library> = Some(&oracle::library::Ours);
    #[cfg(not(feature = "ours"))]
    let library: Option<&dyn Library> = None;
    if library.is_none() {
        println!("The library is not linked (feature `ours`): only the original is timed.\n");
    }
    moves::table(library);
    merges::table(library);
    #[cfg(feature = "ours")]
    targets::table(Some(&oracle::target_cases::ours));
    #[cfg(not(feature = "ours"))]
    targets::table(None);
}
