//! The move graph's states and answers in the terms of the original.
use std::collections::BTreeMap;

use crate::library::{EdgeReply, Reply, SetReply};
use crate::moves_cases::{Answer, MoveCall};
use crate::moves_model::{Graph, Load, MoveState, NONE};
use crate::sets::{Set, width};
use crate::stand_ins::rolldown_utils::BitSet;
use crate::views::{MoveLists, MoveView};

/// What the original's fields answer to a question that isn't refused.
pub fn original_answer(view: &MoveView, call: &MoveCall) -> Option<Answer> {
    let reply = |value: u32| Answer::Reply(Reply::value(value.into()));
    Some(match call {
        MoveCall::Move { .. } | MoveCall::StartOrder { .. } | MoveCall::Counter { .. } => return None,
        MoveCall::AtomSet { atom } => Answer::Set(SetReply::set(view.place[*atom as usize])),
        MoveCall::AtomCount { bits } => reply(view.counts.get(&Set::from_words(bits)).map_or(0, |&count| count)),
        MoveCall::Multiplicity { from, to } => {
            let ends = (Set::from_words(from), Set::from_words(to));
            reply(view.edges.iter().find(|edge| (edge.0, edge.1) == ends).map_or(0, |edge| edge.2))
        }
        MoveCall::EdgeCount => reply(view.edges.len() as u32),
        MoveCall::ChunkCount => reply(view.counts.values().filter(|&&count| count > 0).count() as u32),
        MoveCall::EdgeAt { k } => {
            let edge = usize::try_from(*k).ok().and_then(|k| view.edges.get(k));
            Answer::Edge(edge.map_or(EdgeReply::none(), |&(from, to, count)| EdgeReply::edge(from, to, count.into())))
        }
        MoveCall::HasCycle => reply((!view.acyclic).into()),
    })
}

/// The model's state in the terms of the original; `seen` are the sets that were ever registered.
pub fn model_view(load: &Load, state: &MoveState, seen: &[Set]) -> MoveView {
    let place = state.ledger().place;
    let graph = Graph::new(load, &place);
    let mut counts = BTreeMap::new();
    for &set in &place {
        *counts.entry(set).or_insert(0) += 1;
    }
    MoveView {
        registered: seen.to_vec(),
        place,
        counts,
        edges: graph.edges.iter().map(|(&(from, to), &count)| (from, to, count)).collect(),
        acyclic: !graph.cyclic(),
        component: graph.component().into_iter().collect(),
    }
}

/// The lists as the original wants them.
pub fn original_lists(load: &Load, sets: &[u64]) -> MoveLists {
    let w = width(load.e) as usize;
    MoveLists {
        bits: (0..load.a as usize).map(|atom| BitSet::from_words(&sets[atom * w..(atom + 1) * w])).collect(),
        dependencies: (0..load.a as usize)
            .map(|atom| load.of(atom).iter().map(|&other| other as usize).collect())
            .collect(),
        hosts: load.hosts.iter().map(|&host| (host != NONE).then_some(host as usize)).collect(),
    }
}
