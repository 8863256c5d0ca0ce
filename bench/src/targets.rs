//! The choice of a merge target.
use oracle::library::Reply;
use oracle::target_cases::{Call, Case};
use oracle::target_model::{Entries, Lists};
use oracle::target_original::Original;

use crate::{best, ratio, time};

const CALLS: usize = 20;

/// The first `count` bits.
fn bits(count: u32) -> [u64; 4] {
    std::array::from_fn(|word| {
        let count = count.saturating_sub(64 * word as u32).min(64);
        if count == 64 { u64::MAX } else { (1 << count) - 1 }
    })
}

/// `named` entries of 1,024 chunks, `users` of them user entries, 4,096 modules. Of the entries searched only the last is imported by
/// all; its chunk holds all modules and reaches every dynamic entry, and no other chunk reaches one. Lists of 8,192 numbers.
fn large(named: u32, users: u32, last_wins: bool) -> Case {
    let (k, m) = (1024u32, 4096u32);
    let searched = if users == 0 { named } else { users };
    let target = searched - 1;
    let each = 8192 / searched - 1;
    let importers: Vec<Vec<u32>> = (0..m)
        .map(|module| match module {
            _ if module == target && last_wins => (0..searched).collect(),
            _ if module < searched => (0..each.min(searched - 1)).collect(),
            _ => vec![],
        })
        .collect();
    let modules: Vec<Vec<u32>> =
        (0..k).map(|chunk| if chunk == target { (0..m).collect() } else { vec![chunk; 4] }).collect();
    let reached: Vec<Vec<u32>> =
        (0..k).map(|chunk| if chunk == target { (users..named).collect() } else { (300..307).collect() }).collect();
    let entries = Entries {
        k: k.into(),
        m: m.into(),
        kinds: (0..k).map(|chunk| if chunk < users || chunk >= named { 1 } else { 2 }).collect(),
        entry_modules: (0..k).collect(),
        modules: Lists::of(&modules),
        importers: Lists::of(&importers),
        dynamic_importers: Lists::of(&(0..m).map(|module| vec![module % 7, 4095 - module]).collect::<Vec<_>>()),
        reached: Lists::of(&reached),
        side_effects: vec![1; k as usize],
        observable_exports: vec![0; m as usize],
    };
    Case { entries, candidate: (1000..m).collect(), set: bits(named), classes: None }
}

/// The same, the last of the named chunks common, so that there is nothing to search.
fn common(named: u32) -> Case {
    let mut case = large(named, 0, false);
    case.entries.kinds[named as usize - 1] = 8;
    case
}

/// Two user entries and a dynamic one of eight chunks, 64 modules.
fn small() -> Case {
    let lists = |count: u32, items: &dyn Fn(u32) -> Vec<u32>| Lists::of(&(0..count).map(items).collect::<Vec<_>>());
    let entries = Entries {
        k: 8,
        m: 64,
        kinds: vec![1, 1, 2, 8, 8, 8, 8, 8],
        entry_modules: (0..8).collect(),
        modules: lists(8, &|chunk| (8 * chunk..8 * chunk + 8).collect()),
        importers: lists(64, &|module| if module == 0 { vec![1, 5, 9] } else { vec![module - 1] }),
        dynamic_importers: lists(64, &|module| if module == 2 { vec![0] } else { vec![] }),
        reached: lists(8, &|chunk| if chunk == 0 { vec![2] } else { vec![] }),
        side_effects: vec![1; 8],
        observable_exports: vec![1; 64],
    };
    Case { entries, candidate: vec![60, 61, 62, 63], set: bits(3), classes: None }
}

fn row(name: &str, case: &Case, library: Option<Call>) {
    let original = Original::new(&case.entries, &case.candidate, case.set);
    let found = original.choose();
    let theirs = best(
        CALLS,
        || (),
        |_, _| {
            std::hint::black_box(original.choose());
        },
    );
    let ours = library.map(|call| {
        let told = call(case);
        assert_eq!(told, Reply::value(found.map_or(u64::from(u32::MAX), u64::from)), "{name}");
        best(
            CALLS,
            || (),
            |_, _| {
                std::hint::black_box(call(case));
            },
        )
    });
    let found = found.map_or("none".into(), |target| target.to_string());
    match ours {
        Some(ours) => println!("| {name} | {found} | {} | {} | {} |", time(theirs), time(ours), ratio(ours, theirs)),
        None => println!("| {name} | {found} | {} | | |", time(theirs)),
    }
}

pub fn table(library: Option<Call>) {
    println!("\n### Choice of a merge target\n");
    println!("| input | target | original | library | ratio |");
    println!("|---|---|---|---|---|");
    row("256 named entries, 128 user and 128 dynamic, of 1,024; all guards asked", &large(256, 128, true), library);
    row("256 named user entries of 1,024; the last wins", &large(256, 256, true), library);
    row("256 named dynamic entries of 1,024; none wins", &large(256, 0, false), library);
    row("256 named chunks of 1,024, the last a common one", &common(256), library);
    row("3 named entries of 8, 64 modules", &small(), library);
}
