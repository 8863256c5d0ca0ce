//! Plans a small split, as examples/c/plan.c does, and prints the same lines.
use nidskalm::{
    Assignment, ChunkIdx, EntrySet, InitialChunks, MergeGraph, Mode, ModuleIdx, MoveGraph, OwnedLoad, Refusal, Size,
};

const NAMES: [&str; 3] = ["shared.js", "screen0.js", "screen1.js"];

/// Three atoms and two screens, entry bits 0 and 1: both want shared.js, and screen1.js is certified, so it stays.
fn moves() -> Result<(), Refusal> {
    let load = OwnedLoad::from_lists([vec![], vec![0], vec![0]], [Some(1), Some(2)]).with_fixed([false, false, true]);
    let wanted_by = [EntrySet::from_bits([0, 1]), EntrySet::from_bits([0]), EntrySet::from_bits([1])];
    let mut graph = MoveGraph::owning(load, 8, &wanted_by)?;
    println!("load: {}", if graph.is_acyclic() { "acyclic" } else { "cyclic" });
    let (first, both) = (EntrySet::from_bits([0]), EntrySet::from_bits([0, 1]));
    for (atom, target) in [(0, first), (1, both), (2, first), (3, first)] {
        let name = NAMES.get(atom as usize).unwrap_or(&"no atom");
        match graph.try_move(atom, target) {
            Ok(moved) if moved.accepted => println!("{name} to {target}: accepted"),
            Ok(_) => println!("{name} to {target}: rejected, two chunks would import each other"),
            Err(refusal) => println!("{name} to {target}: {refusal}"),
        }
    }
    for edge in graph.edges()? {
        println!("chunk {} imports {}, times: {}", edge.from, edge.to, edge.multiplicity);
    }
    Ok(())
}

/// Chunks 0 and 1 hold modules 0 and 1. Modules 2 and 3 have sets of their own, so they get chunks 2 and 3, which need
/// creation. Module 0 depends on 1, and 3 on 2. Chunk 2 is proposed for chunk 0, and 3 for 1.
///
/// In [`Mode::Original`] the second warning doesn't see that 2 is now part of 0: both are merged, and chunks 0 and 1 import
/// each other. Where merged chunks stand for their target it does.
fn merges(mode: Mode) -> Result<(), Refusal> {
    let size = Size { chunks: 8, modules: 4, entries: 16, entry_bits: 2 };
    let initial = InitialChunks { module_starts: &[0, 1, 2], modules: &[0, 1], sets: &[], set_chunks: &[] };
    let mut graph = MergeGraph::new(size, initial, mode, &[0; 4])?;
    graph.init_module_assignment(ModuleIdx(2), EntrySet::from_bits([0, 1]))?;
    graph.init_module_assignment(ModuleIdx(3), EntrySet::from_bits([1]))?;
    graph.calc_chunk_dependencies(&[0, 1, 1, 1, 2], &[1, 2])?;
    let decided = graph.pass(&[Some(ChunkIdx(0)), Some(ChunkIdx(1))], &[false, false])?;
    for (chunk, assignment) in (2..).zip(decided) {
        let mode = mode as u32;
        match assignment {
            Assignment::Merged(ChunkIdx(into)) => println!("mode {mode}: chunk {chunk} is merged into {into}"),
            Assignment::Created(ChunkIdx(number)) => {
                println!("mode {mode}: chunk {chunk} is created with number {number}")
            }
        }
    }
    Ok(())
}

fn main() -> Result<(), Refusal> {
    moves()?;
    merges(Mode::Original)?;
    merges(Mode::StandForTarget)
}
