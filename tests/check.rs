//! The comparison of a subject, any implementation of the operations, with the model.
#![allow(dead_code)] // each program that takes this module in uses its own part of it

pub mod calls;
pub mod choices;
pub mod covers;
pub mod guarded;
pub mod halves;
pub mod handmade;
pub mod inputs;
pub mod plans;
pub mod promises;
pub mod random;
pub mod recorded;
pub mod runs;
pub mod same;
pub mod script;
pub mod share;
pub mod states;
pub mod tally;
pub mod texts;
