//! The original built unchanged where its files are, a plain model of document 01, and the runs that compare them with the library.
pub mod fewer;
pub mod inputs;
pub mod layout;
pub mod library;
mod limits;
pub mod loop_loads;
pub mod loops;
pub mod merges_calls;
pub mod merges_cases;
pub mod merges_made_up;
pub mod merges_model;
pub mod moves_cases;
pub mod moves_made_up;
pub mod moves_model;
pub mod moves_real;
pub mod moves_views;
#[cfg(original)]
pub mod original;
#[cfg(not(original))]
#[path = "no_original.rs"]
pub mod original;
pub mod ranks;
#[path = "../../../rust/src/raw.rs"]
pub mod raw;
pub mod record;
pub mod replay;
pub mod run;
pub mod sets;
pub mod stand_in_library;
mod stand_in_merges;
mod stand_in_moves;
pub mod stand_ins;
pub mod target_cases;
pub mod target_model;
#[cfg(original)]
pub mod target_original;
pub mod views;
