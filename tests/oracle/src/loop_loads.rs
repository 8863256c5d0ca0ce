//! Loads of real packages (../shared/loads, beside the repository; not in it), as chunks for a pass: an atom is a module.
use std::path::Path;

use crate::loops::{Start, closes_loop};
use crate::sets::Set;

/// What stands between `"name":` and `end`.
fn part<'a>(text: &'a str, name: &str, end: &str) -> Option<&'a str> {
    let key = format!("\"{name}\":");
    let from = text.find(&key)? + key.len();
    text[from..].find(end).map(|length| &text[from..from + length])
}

/// A set written as 0x and up to 64 digits.
fn set(word: &str) -> Option<Set> {
    let digits = word.trim_matches(['[', '"']).strip_prefix("0x")?;
    let mut set = [0; 4];
    for (place, digit) in digits.chars().rev().enumerate() {
        set[place / 16] |= u64::from(digit.to_digit(16)?) << (place % 16 * 4);
    }
    Some(Set(set))
}

fn start(text: &str) -> Option<Start> {
    let e: u64 = part(text, "E", ",")?.parse().ok()?;
    let sets = part(text, "sets", "]")?.split(',').map(set).collect::<Option<Vec<Set>>>()?;
    let list = |list: &str| -> Option<Vec<usize>> {
        list.split(',').filter(|word| !word.is_empty()).map(|word| word.parse().ok()).collect()
    };
    let lists = part(text, "dependencies", "]]")?.trim_start_matches('[').split("],[").map(list);
    let dependencies = lists.collect::<Option<Vec<Vec<usize>>>>()?;
    (sets.len() == dependencies.len()).then_some(Start { e, initial: e as usize, sets, dependencies })
}

/// The loads of a directory whose chunks close no loop, by name; none where it isn't there. A file that can't be read is an error.
pub fn loads(directory: &Path) -> Result<Vec<(String, Start)>, String> {
    let Ok(files) = std::fs::read_dir(directory) else { return Ok(vec![]) };
    let mut found = vec![];
    for file in files {
        let path = file.map_err(|why| why.to_string())?.path();
        let text = std::fs::read_to_string(&path).map_err(|why| format!("{}: {why}", path.display()))?;
        let start = start(&text).ok_or_else(|| format!("{}: no load", path.display()))?;
        let chunks = start.chunks();
        if !closes_loop(&chunks.edges, &vec![None; chunks.sets.len()]) {
            found.push((path.file_stem().unwrap().to_string_lossy().into_owned(), start));
        }
    }
    found.sort_by(|(one, _), (other, _)| one.cmp(other));
    Ok(found)
}
