//! What the tool prints.
use crate::cycle::shortest;
use crate::file::{Entry, Source};
use crate::planning::Tried;
use nidskalm::{Chunk, MoveGraph, Refusal};

/// Module names in a chunk's box before `+ n more`.
const NAMES: usize = 3;

/// A number with its thing, which gets an s but for 1.
pub fn count(number: usize, thing: &str) -> String {
    format!("{number} {thing}{}", if number == 1 { "" } else { "s" })
}

/// What a file has.
pub fn sizes(source: &Source) -> String {
    let atoms = &source.atoms;
    let modules = atoms.iter().map(|atom| atom.modules.len()).sum();
    let needs = atoms.iter().map(|atom| atom.needs.len()).sum::<usize>();
    let bytes = atoms.iter().fold(0u64, |sum, atom| sum.saturating_add(atom.bytes));
    format!(
        "{} ({} fixed), {}, {}, {bytes} bytes, {needs} {}",
        count(atoms.len(), "atom"),
        atoms.iter().filter(|atom| atom.fixed).count(),
        count(modules, "module"),
        if source.entries.len() == 1 { "1 entry".into() } else { format!("{} entries", source.entries.len()) },
        if needs == 1 { "dependency" } else { "dependencies" },
    )
}

/// The chunk graph as it stands.
pub fn graph(graph: &MoveGraph) -> Result<String, Refusal> {
    let (chunks, edges) = (graph.chunks()?.len(), graph.edge_count()? as usize);
    let cycle = if graph.is_acyclic() { "acyclic" } else { "cyclic: some chunks import each other in a circle" };
    Ok(format!("{}, {}, {cycle}", count(chunks, "chunk"), count(edges, "edge")))
}

/// A shortest circle, a line for each chunk: its set and its first module.
pub fn cycle(source: &Source, graph: &MoveGraph) -> Result<String, Refusal> {
    let chunks = graph.chunks()?;
    let name =
        |set| chunks.iter().find(|chunk| chunk.set == set).map_or(String::new(), |chunk| source.name(chunk.atoms[0]));
    let lines = shortest(graph.edges()?.as_slice()).into_iter().map(|set| format!("    {set} {}\n", name(set)));
    Ok(format!(
        "a shortest circle, each chunk importing the next and the last the first:\n{}",
        lines.collect::<String>()
    ))
}

/// One line for a move.
pub fn tried(source: &Source, tried: &Tried) -> String {
    let word = if tried.accepted { "accepted" } else { "rejected" };
    format!("{word}: atom {} ({}) to {}", tried.atom, source.name(tried.atom), tried.target)
}

/// The picture, with chunks named by their modules.
pub fn picture(source: &Source, graph: &MoveGraph) -> Result<String, Refusal> {
    graph.to_dot_with(|chunk| label(source, chunk))
}

/// A chunk's box: the entries that start there, the first of its other modules, how many there are, and their size.
fn label(source: &Source, chunk: &Chunk) -> String {
    let atoms = || chunk.atoms.iter().filter_map(|&atom| source.atoms.get(atom as usize));
    let here = |entry: &&Entry| entry.host.is_some_and(|host| chunk.atoms.contains(&host));
    let entries: Vec<&str> = source.entries.iter().filter(here).map(|entry| entry.name.as_str()).collect();
    let modules: Vec<&str> = atoms().flat_map(|atom| atom.modules.iter().map(String::as_str)).collect();
    let others = modules.iter().filter(|name| !entries.contains(name)).map(|name| name.to_string());
    let names: Vec<String> = entries.iter().map(|name| format!("entry {name}")).chain(others).collect();
    let mut lines = names[..names.len().min(NAMES)].to_vec();
    if names.len() > NAMES {
        lines.push(format!("+ {} more", names.len() - NAMES));
    }
    let bytes = atoms().fold(0u64, |sum, atom| sum.saturating_add(atom.bytes));
    lines.push(format!("{}, {}", count(modules.len(), "module"), size(bytes)));
    lines.join("\n")
}

/// Bytes in the unit that a reader wants.
fn size(bytes: u64) -> String {
    match bytes {
        0..1000 => format!("{bytes} bytes"),
        1000..1_000_000 => format!("{}.{} kB", bytes / 1000, bytes % 1000 / 100),
        _ => format!("{}.{} MB", bytes / 1_000_000, bytes % 1_000_000 / 100_000),
    }
}
