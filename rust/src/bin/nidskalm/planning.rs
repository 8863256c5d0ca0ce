//! Moves greedily, where that removes a chunk.
use crate::file::Source;
use nidskalm::{EntrySet, MoveGraph, Refusal};

/// One tried move.
pub struct Tried {
    pub atom: u32,
    pub target: EntrySet,
    pub accepted: bool,
}

/// How far planning has come.
pub struct Progress {
    pub round: usize,
    pub atom: u32,
    pub tried: usize,
}

/// Moves each atom that is alone in its chunk into the chunk of one of its dependents, of one of its dependencies, or of a
/// single entry that wants it: the first that is accepted. Each such move removes a chunk. Rounds go on until one accepts
/// nothing. The library decides about every move; fixed atoms are left alone.
pub fn plan(source: &Source, graph: &mut MoveGraph, mut tell: impl FnMut(Progress)) -> Result<Vec<Tried>, Refusal> {
    let dependents = dependents(source);
    let mut tried: Vec<Tried> = vec![];
    for round in 1.. {
        let before = tried.len();
        for (atom, dependents) in (0..).zip(&dependents) {
            tell(Progress { round, atom, tried: tried.len() });
            if source.atoms[atom as usize].fixed || graph.atom_count(graph.atom_set(atom)?)? != 1 {
                continue;
            }
            let near = dependents.iter().chain(&source.atoms[atom as usize].needs);
            let targets = targets(graph, atom, near)?;
            settle(graph, atom, &targets, &mut tried)?;
        }
        if !tried[before..].iter().any(|tried| tried.accepted) {
            break;
        }
    }
    Ok(tried)
}

/// Who depends on each atom.
fn dependents(source: &Source) -> Vec<Vec<u32>> {
    let mut lists = vec![vec![]; source.atoms.len()];
    for (atom, needs) in (0..).zip(source.atoms.iter().map(|atom| &atom.needs)) {
        for &needed in needs {
            lists[needed as usize].push(atom);
        }
    }
    lists
}

/// The occupied sets that an atom may go to, each once: those of the atoms near it, then single entries of its own set.
fn targets<'a>(graph: &MoveGraph, atom: u32, near: impl Iterator<Item = &'a u32>) -> Result<Vec<EntrySet>, Refusal> {
    let own = graph.atom_set(atom)?;
    let near: Vec<EntrySet> = near.map(|&other| graph.atom_set(other)).collect::<Result<_, _>>()?;
    let single = own.bits().map(|bit| EntrySet::from_bits([bit]));
    let mut targets: Vec<EntrySet> = vec![];
    for set in near.into_iter().chain(single) {
        if set != own && !targets.contains(&set) && graph.atom_count(set)? > 0 {
            targets.push(set);
        }
    }
    Ok(targets)
}

/// Tries the targets up to the first that is accepted.
fn settle(graph: &mut MoveGraph, atom: u32, targets: &[EntrySet], tried: &mut Vec<Tried>) -> Result<(), Refusal> {
    for &target in targets {
        let accepted = graph.try_move(atom, target)?.accepted;
        tried.push(Tried { atom, target, accepted });
        if accepted {
            break;
        }
    }
    Ok(())
}
