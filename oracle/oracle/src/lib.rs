// SPDX-License-Identifier: MIT OR Apache-2.0
//! Answers lists of calls by the unchanged Rust, and makes such lists.

pub mod compare;
pub mod coverage;
pub mod directory;
pub mod generate;
pub mod host;
pub mod image;
pub mod layout;
pub mod levels;
pub mod options;
pub mod player;
pub mod range;
pub mod recut;
pub mod refusal;
pub mod rng;
pub mod session;
pub mod states;
pub mod stretches;
pub mod text;
