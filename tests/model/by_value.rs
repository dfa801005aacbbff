//! The same operations by value: a record goes in, the next one comes out. A refused call hands back
//! what it was given.

use super::multiplexer::Multiplexer;
use super::refusal::Refusal;
use super::switch::{SlotAnswer, Switch};

pub fn count(mut multiplexer: Multiplexer, choice: Option<usize>) -> Multiplexer {
    multiplexer.count(choice);
    multiplexer
}

pub fn end_frame(mut multiplexer: Multiplexer, ports: usize) -> Multiplexer {
    multiplexer.end_frame(ports);
    multiplexer
}

pub fn arrive(
    mut state: Switch,
    store: &mut [u32],
    input: usize,
    output: usize,
    cell: u32,
) -> (Switch, Result<(), Refusal>) {
    let outcome = state.arrive(store, input, output, cell);
    (state, outcome)
}

pub fn load(mut state: Switch, ports: usize, frame: u32, rates: &[u16]) -> (Switch, Result<(), Refusal>) {
    let outcome = state.load(ports, frame, rates);
    (state, outcome)
}

pub fn step(mut state: Switch, store: &[u32]) -> (Switch, Result<SlotAnswer, Refusal>) {
    let outcome = state.step(store);
    (state, outcome)
}
