//! The second implementation of the switch, in plain Rust.
//!
//! It was written from the scope, docs/DECISIONS.md and a draft of the header, without a look at the proved
//! code, so that a mistake in one is not likely to stand in the other. The records are laid out as in the header.
//! Operations change their records in place; `by_value` has the same ones as state in, state out.
#![allow(dead_code, unused_imports)] // each program that takes this module in uses its own part of it

pub mod by_value;
pub mod meter;
pub mod multiplexer;
pub mod plan;
pub mod planfile;
pub mod plantext;
pub mod printout;
pub mod refusal;
pub mod regulator;
pub mod smoothness;
pub mod switch;

/// The version of the interface: major × 10,000 + minor × 100 + patch.
pub const VERSION: u32 = 1_500;

pub use multiplexer::Multiplexer;
pub use plan::Plan;
pub use refusal::Refusal;
pub use switch::{Crosspoint, Port, Queue, SlotAnswer, Switch};
