//! The stand-in library's merge graph.
use std::collections::BTreeSet;

use crate::library::Reply;
use crate::merges_calls::{MergeCall, size_refusal};
use crate::merges_model::{MergeState, Size};
use crate::sets::lent_set;
use crate::stand_in_library::StandIn;

impl StandIn {
    /// A row that a planted wrong order finds first.
    fn wrong_order(&self, size: Size, state: &MergeState, call: &MergeCall) -> Option<u64> {
        let full = state.entries.len() as u64 >= size.l;
        match call {
            MergeCall::InitModule { bits, .. } => {
                let set = lent_set(bits, size.e);
                let named = set.is_some_and(|set| state.sets.iter().any(|(other, _)| *other == set));
                if self.planted("18 before 16") && !named && u64::from(state.made()) >= size.c {
                    return Some(18);
                }
                if self.planted("no room for a set in a made-up area") && set.is_some() && !named {
                    return (state.sets.len() as u64 >= size.c && u64::from(state.made()) < size.c && !full)
                        .then_some(18);
                }
                (self.planted("19 before 18") && set.is_some() && full).then_some(19)
            }
            MergeCall::Merge { target, source } | MergeCall::Warning { source, target } => {
                (self.planted("20 before 16") && source == target).then_some(20)
            }
            _ => None,
        }
    }

    pub(crate) fn merge_call(&self, size: Size, area: &mut [u32], call: &MergeCall) -> (Reply, Vec<(u32, u32)>) {
        let row = size_refusal(size, area.len(), call);
        if row != 0 {
            return (Reply::refused(row), vec![]);
        }
        let Some(mut state) = MergeState::decode(size, area) else {
            let lists_differ = matches!(call, MergeCall::Pass { proposals, kinds, .. } if proposals.len() != *kinds);
            let row = if lists_differ && self.planted("15 of the pass before 21") { 15 } else { 21 };
            return (Reply::refused(row), vec![]);
        };
        if let Some(row) = self.wrong_order(size, &state, call) {
            return (Reply::refused(row), vec![]);
        }
        let before = state.clone();
        if self.planted("calc clears") && matches!(call, MergeCall::Calc { .. }) {
            state.dependencies.iter_mut().for_each(BTreeSet::clear);
        }
        let mut call = call.clone();
        if let (MergeCall::Pass { bars, .. }, true) = (&mut call, self.planted("bar ignored")) {
            bars.fill(0);
        }
        let (mut reply, lists) = state.call(size, &call);
        if reply.refusal == 0 {
            self.spoil_state(&call, &before, &mut state, &lists);
            self.spoil_answer(&call, &mut reply);
            state.encode(size, area);
        }
        (reply, lists)
    }

    /// What a planted bug leaves after a call.
    fn spoil_state(&self, call: &MergeCall, before: &MergeState, state: &mut MergeState, lists: &[(u32, u32)]) {
        match call {
            MergeCall::Pass { .. } if self.planted("needs_creation cleared") => {
                for (&chunk, &(kind, _)) in before.candidates().iter().zip(lists) {
                    state.needs_creation[chunk as usize] &= kind == 1;
                }
            }
            MergeCall::Pass { .. } if self.planted("numbers restart at each pass") => state.created = 0,
            MergeCall::Merge { .. } if self.planted("merging does nothing") => state.clone_from(before),
            MergeCall::Merge { source, .. } if self.planted("source keeps its set") => {
                let source = *source as usize;
                state.dependencies[source].clone_from(&before.dependencies[source]);
            }
            MergeCall::Merge { .. } if self.planted("side effects lost in a merge") => {
                state.side_effects.clone_from(&before.side_effects);
            }
            MergeCall::AddModule { module, .. } if self.planted("a module stays where it was put first") => {
                let module = *module as usize;
                state.module_chunk[module] = before.module_chunk[module].or(state.module_chunk[module]);
            }
            _ => {}
        }
    }

    /// What a planted bug answers.
    fn spoil_answer(&self, call: &MergeCall, reply: &mut Reply) {
        match call {
            MergeCall::Warning { .. } if self.planted("constant warning") => reply.value = 1,
            MergeCall::IsReachable { from, to } if self.planted("is_reachable in no step") && from == to => {
                reply.value = 1;
            }
            _ => {}
        }
    }
}
