//! The inputs, stage by stage.

pub mod bad_lists;
pub mod damaged;
pub mod edges;
pub mod entries;
pub mod entry_tables;
pub mod examples;
pub mod large;
pub mod lists;
pub mod placed;
pub mod position_examples;
pub mod positions;
pub mod program;
pub mod reasons;
pub mod states;
pub mod tiny;
pub mod typing;
pub mod typing_examples;
pub mod wild;
