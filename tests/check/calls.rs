//! One call on a given state, on the subject and on the model, with all that comes back compared.

use super::guarded::Guarded;
use super::same::{same_list, same_ports, same_state, same_verdict, told};
use crate::model::plan::MOST_PORTS;
use crate::model::refusal::number;
use crate::model::{by_value, Multiplexer, Plan, SlotAnswer, Switch};
use crate::operations::Operations;

/// The verdict and the state that comes back.
pub type Outcome = Result<(u32, Switch), String>;

pub fn arrive<S: Operations>(
    state: &Switch,
    mut store: Guarded<u32>,
    input: usize,
    output: usize,
    cell: u32,
) -> Outcome {
    let mut model_store = store.clone();
    let reply = S::arrive(state, store.list_mut(), input, output, cell);
    let (next, outcome) = by_value::arrive(*state, model_store.list_mut(), input, output, cell);
    same_verdict(reply.verdict, number(&outcome))
        .and_then(|()| same_state(&reply.state, &next))
        .and_then(|()| same_list(&store, &model_store))
        .map_err(|what| {
            let call = format!("arrive input {input} output {output} cell {cell:#x}, store of {}", store.list().len());
            format!("{call}: {what}; on {}", describe(state))
        })?;
    Ok((reply.verdict, reply.state))
}

pub fn load<S: Operations>(state: &Switch, ports: usize, frame: u32, rates: &[u16]) -> Outcome {
    let reply = S::load(state, ports, frame, rates);
    let (next, outcome) = by_value::load(*state, ports, frame, rates);
    same_verdict(reply.verdict, number(&outcome))
        .and_then(|()| same_state(&reply.state, &next))
        .map_err(|what| format!("load N {ports} T {frame} rates {}: {what}; on {}", told(rates), describe(state)))?;
    Ok((reply.verdict, reply.state))
}

pub fn step<S: Operations>(state: &Switch, store: Guarded<u32>) -> Outcome {
    let kept = store.clone();
    let reply = S::step(state, store.list());
    let (next, outcome) = by_value::step(*state, kept.list());
    let answer = outcome.unwrap_or(SlotAnswer::IDLE);
    same_verdict(reply.verdict, number(&outcome))
        .and_then(|()| same_state(&reply.state, &next))
        .and_then(|()| same_list(&store, &kept))
        .and_then(|()| same_ports("board", &reply.moves, &answer.moves))
        .and_then(|()| same_ports("head", &reply.sends, &answer.sends))
        .map_err(|what| format!("step, store of {}: {what}; on {}", kept.list().len(), describe(state)))?;
    Ok((reply.verdict, reply.state))
}

/// The part of a state for ports below N.
pub fn describe(state: &Switch) -> String {
    let ports = state.running.ports.min(MOST_PORTS);
    let flows = ports * ports;
    let plan = |plan: &Plan| format!("N {} T {} rates {:?}", plan.ports, plan.frame, &plan.rates[..flows]);
    let queues: Vec<_> = state.queues[..flows].iter().map(|queue| (queue.place, queue.count)).collect();
    let crosspoints: Vec<_> = state.crosspoints[..flows].iter().map(|crosspoint| crosspoint.count).collect();
    let services = |side: &[Multiplexer]| -> Vec<Vec<u16>> {
        side[..ports].iter().map(|multiplexer| multiplexer.served[..ports].to_vec()).collect()
    };
    [
        format!("the state: running {}", plan(&state.running)),
        format!("waiting {}, waits {}", plan(&state.waiting), state.waits),
        format!("Q {}", state.depth),
        format!("slot {}", state.slot),
        format!("queues (place, count) {queues:?}"),
        format!("crosspoint counts {crosspoints:?}"),
        format!("boards served {:?}", services(&state.boards)),
        format!("heads served {:?}", services(&state.heads)),
    ]
    .join("; ")
}
