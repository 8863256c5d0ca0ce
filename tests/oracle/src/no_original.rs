//! In the place of the original where its files are missing: there is no such graph.
use crate::stand_ins::rolldown_utils::BitSet;
use crate::views::{MergeView, MoveLists, MoveView};
use std::marker::PhantomData;

/// Whether there is an original to compare.
pub const PRESENT: bool = false;

enum Never {}

pub struct OriginalMoves<'a>(Never, PhantomData<&'a ()>);

impl<'a> OriginalMoves<'a> {
    pub fn found(_: &'a MoveLists) -> Option<Self> {
        None
    }

    pub fn try_move(&mut self, _: u32, _: &BitSet) -> bool {
        match self.0 {}
    }

    pub fn view(&self) -> MoveView {
        match self.0 {}
    }

    pub fn acyclic(&self) -> bool {
        match self.0 {}
    }

    pub fn mark(&self) -> u32 {
        match self.0 {}
    }

    pub fn set_mark(&mut self, _: u32) {
        match self.0 {}
    }
}

pub struct OriginalMerges(Never);

impl OriginalMerges {
    pub fn found(_: u32, _: &[Vec<u32>], _: &[(Vec<u64>, u32)], _: &[u32]) -> Option<Self> {
        None
    }

    pub fn init_module_assignment(&mut self, _: u32, _: &[u64], _: &[u32]) {
        match self.0 {}
    }

    pub fn add_module_to_chunk(&mut self, _: u32, _: u32, _: &[u32]) {
        match self.0 {}
    }

    pub fn register_chunk_graph_index(&mut self, _: u32, _: u32) {
        match self.0 {}
    }

    pub fn to_temp_idx(&self, _: u32) -> Option<u32> {
        match self.0 {}
    }

    pub fn calc_chunk_dependencies(&mut self, _: &[Vec<u32>]) {
        match self.0 {}
    }

    pub fn would_create_circular_dependency(&self, _: u32, _: u32) -> bool {
        match self.0 {}
    }

    pub fn is_reachable(&self, _: u32, _: u32) -> bool {
        match self.0 {}
    }

    pub fn merge_chunk_dependencies(&mut self, _: u32, _: u32) {
        match self.0 {}
    }

    pub fn pass(&mut self, _: &[Option<u32>], _: &[u32]) -> Vec<(u32, u32)> {
        match self.0 {}
    }

    pub fn view(&self) -> MergeView {
        match self.0 {}
    }
}
