//! Hand-made states: every call on each, where number 12 or 13 is due and where it just isn't, and two loads on valid ones.

use super::calls::{self, describe, Outcome};
use super::guarded::Guarded;
use super::handmade::{any_state, CLAUSES, THIRD_CELLS};
use super::plans;
use super::random::Random;
use super::tally::{Tally, TABLE_FRAME};
use crate::model::plan::{LONGEST_FRAME, MOST_PORTS};
use crate::model::Switch;
use crate::operations::Operations;

const STORE_LENGTH: u32 = 7;
const BROKEN_STATE: u32 = 12;
const THIRD_CELL: u32 = 13;

/// Calls that follow one another from one hand-made state.
const WALK: usize = 6;

/// Each clause of 12 and number 13 `rounds` times on both sides, and as many walks from valid states.
pub fn compare<S: Operations>(rounds: usize, random: &mut Random, tally: &mut Tally) -> Result<(), String> {
    for _ in 0..rounds {
        for past in [false, true] {
            let side = if past { "past the limit" } else { "at the limit" };
            for (name, make) in CLAUSES {
                let state = make(random, past);
                all_calls::<S>(&state, past, random, tally)
                    .map_err(|what| format!("hand-made state for 12, {name}, {side}: {what}"))?;
                tally.clause(name, past);
            }
            for (name, make) in THIRD_CELLS {
                let state = make(random, past);
                crossing_step::<S>(&state, past, random, tally)
                    .map_err(|what| format!("hand-made state for 13, {name}, {side}: {what}"))?;
                tally.clause(name, past);
            }
        }
        walk::<S>(random, tally).map_err(|what| format!("calls from a hand-made state: {what}"))?;
        two_loads::<S>(random, tally).map_err(|what| format!("two loads on a hand-made state: {what}"))?;
    }
    Ok(())
}

/// Each call on one state; number 12 is expected exactly where the state is broken.
fn all_calls<S: Operations>(
    state: &Switch,
    broken: bool,
    random: &mut Random,
    tally: &mut Tally,
) -> Result<(), String> {
    tally.waits(state.waits, broken);
    tally.table_states += u64::from(state.running.frame == TABLE_FRAME && !broken);
    for call in [arrive::<S>, load::<S>, step::<S>, step_other_length::<S>] {
        let (verdict, _) = tallied(call(state, random), tally)?;
        if (verdict == BROKEN_STATE) != broken {
            return Err(format!("verdict {verdict} on {}", describe(state)));
        }
    }
    Ok(())
}

/// A step; number 13 is expected exactly where a crossing would get a third cell and the store is right.
fn crossing_step<S: Operations>(
    state: &Switch,
    third_cell: bool,
    random: &mut Random,
    tally: &mut Tally,
) -> Result<(), String> {
    let (verdict, _) = tallied(step::<S>(state, random), tally)?;
    let (other_verdict, _) = tallied(step_other_length::<S>(state, random), tally)?;
    let expected = if third_cell { THIRD_CELL } else { 0 };
    if (verdict, other_verdict) != (expected, STORE_LENGTH) {
        return Err(format!("verdicts {verdict} and {other_verdict} on {}", describe(state)));
    }
    Ok(())
}

/// Several calls from a valid state; number 13 may come, 12 may not.
fn walk<S: Operations>(random: &mut Random, tally: &mut Tally) -> Result<(), String> {
    let mut state = any_state(random);
    for _ in 0..WALK {
        let call = random.pick(&[arrive::<S>, load::<S>, step::<S>, step::<S>]);
        let (verdict, next) = tallied(call(&state, random), tally)?;
        if verdict == BROKEN_STATE {
            return Err(format!("verdict 12 on {}", describe(&state)));
        }
        state = next;
    }
    Ok(())
}

/// Of two accepted loads, the state is that of the second alone, in every place of every array.
fn two_loads<S: Operations>(random: &mut Random, tally: &mut Tally) -> Result<(), String> {
    let state = any_state(random);
    let (ports, frame) = (state.running.ports, state.running.frame);
    let [first, second] = [0; 2].map(|_| plans::accepted(random, ports, frame));
    let (_, waiting) = tallied(calls::load::<S>(&state, ports, frame, &first), tally)?;
    let both = tallied(calls::load::<S>(&waiting, ports, frame, &second), tally)?;
    let alone = tallied(calls::load::<S>(&state, ports, frame, &second), tally)?;
    if both != alone || alone.0 != 0 {
        return Err(format!("verdicts {} and {} on {}", both.0, alone.0, describe(&state)));
    }
    tally.second_loads += 1;
    Ok(())
}

fn tallied(outcome: Outcome, tally: &mut Tally) -> Outcome {
    tally.states += 1;
    if let Ok((verdict, _)) = outcome {
        tally.verdict(verdict);
    }
    outcome
}

fn arrive<S: Operations>(state: &Switch, random: &mut Random) -> Outcome {
    let length = store_length(state) + usize::from(random.one_in(12));
    let store = Guarded::cells(random, length);
    calls::arrive::<S>(state, store, some_port(state, random), some_port(state, random), random.cell())
}

fn load<S: Operations>(state: &Switch, random: &mut Random) -> Outcome {
    let ports = if random.one_in(12) { random.within(1, 16) } else { state.running.ports.clamp(1, MOST_PORTS) };
    let frame = if random.one_in(12) { random.frame() } else { state.running.frame.clamp(1, LONGEST_FRAME) };
    calls::load::<S>(state, ports, frame, &plans::accepted(random, ports, frame))
}

fn step<S: Operations>(state: &Switch, random: &mut Random) -> Outcome {
    calls::step::<S>(state, Guarded::cells(random, store_length(state)))
}

fn step_other_length<S: Operations>(state: &Switch, random: &mut Random) -> Outcome {
    calls::step::<S>(state, Guarded::cells(random, store_length(state) + 1))
}

/// A port of the state, now and then none.
fn some_port(state: &Switch, random: &mut Random) -> usize {
    let ports = state.running.ports.clamp(1, MOST_PORTS);
    if random.one_in(12) {
        random.pick(&[ports, 16, usize::MAX])
    } else {
        random.below(ports)
    }
}

/// The right length for a store, as far as the state has one.
fn store_length(state: &Switch) -> usize {
    let ports = state.running.ports.min(MOST_PORTS);
    ports * ports * state.depth.min(64)
}
