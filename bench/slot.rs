//! What a slot costs.

use crate::clock::{batches, best_of, time, BATCH};
use crate::ffi::Library;
use crate::model::{by_value, Refusal, SlotAnswer, Switch};
use crate::operations::Operations;
use crate::unchecked::UncheckedSwitch;
use crate::workload::{fill_queues, Workload, DEPTH};
use std::hint::black_box;

/// Whole frames are timed, at least this many slots.
pub const SLOTS: u32 = 4096;

/// Proved, by value, in place, and the switch that does less.
pub fn slot_times(workload: &Workload, repeats: usize) -> [f64; 4] {
    check_unchecked(workload);
    let implementations: [fn(&mut Switch, &[u32], usize); 3] = [proved_slots, by_value_slots, in_place_slots];
    let mut states = [workload.fresh; 3];
    let mut unchecked = UncheckedSwitch::new(&workload.fresh);
    let slots = SLOTS.div_ceil(workload.frame) * workload.frame;
    best_of(repeats, &batches(slots as usize, batch_slots(workload)), |batch| {
        let [proved, by_value, in_place] = [0, 1, 2].map(|implementation| {
            let state = &mut states[implementation];
            fill_queues(state, DEPTH);
            time(|| implementations[implementation](state, &workload.store, batch.len()))
        });
        unchecked.fill_queues(DEPTH);
        let less = time(|| unchecked_slots(&mut unchecked, &workload.store, batch.len()));
        assert!(states[0] == states[1] && states[1] == states[2], "the implementations differ");
        assert!(unchecked.equals(&states[2]), "the switch that does less differs");
        assert!(states[0].queues[..workload.flows()].iter().all(|queue| queue.count > 0), "a queue ran empty");
        [proved, by_value, in_place, less]
    })
}

/// Within a batch no queue runs empty; between batches, off the clock, all are filled again.
fn batch_slots(workload: &Workload) -> usize {
    let fastest = workload.rates.iter().map(|&rate| usize::from(rate)).max().unwrap_or(0);
    BATCH.min((DEPTH - 4) * workload.frame as usize / fastest)
}

/// The switch that does less has the model's answers and state in every slot of two frames. Its queues are filled
/// in the second frame only, so that empty ones are met too.
fn check_unchecked(workload: &Workload) {
    let mut state = workload.fresh;
    let mut unchecked = UncheckedSwitch::new(&state);
    let mut answer = SlotAnswer::IDLE;
    for slot in 0..2 * workload.frame {
        if slot >= workload.frame {
            fill_queues(&mut state, DEPTH);
            unchecked.fill_queues(DEPTH);
        }
        unchecked.step(&workload.store, &mut answer);
        assert_eq!(state.step(&workload.store), Ok(answer), "the switch that does less answers otherwise");
        assert!(unchecked.equals(&state), "the switch that does less differs");
    }
}

fn proved_slots(state: &mut Switch, store: &[u32], slots: usize) {
    for _ in 0..slots {
        let reply = Library::step(black_box(state), black_box(store));
        black_box((&reply.verdict, &reply.moves, &reply.sends));
        *state = reply.state;
    }
}

fn by_value_slots(state: &mut Switch, store: &[u32], slots: usize) {
    #[inline(never)]
    fn step(state: Switch, store: &[u32]) -> (Switch, Result<SlotAnswer, Refusal>) {
        by_value::step(state, store)
    }
    for _ in 0..slots {
        let (next, answer) = step(*black_box(&mut *state), black_box(store));
        black_box(&answer);
        *state = next;
    }
}

fn in_place_slots(state: &mut Switch, store: &[u32], slots: usize) {
    #[inline(never)]
    fn step(state: &mut Switch, store: &[u32]) -> Result<SlotAnswer, Refusal> {
        state.step(store)
    }
    for _ in 0..slots {
        black_box(&step(black_box(state), black_box(store)));
    }
}

fn unchecked_slots(state: &mut UncheckedSwitch, store: &[u32], slots: usize) {
    let mut answer = SlotAnswer::IDLE;
    for _ in 0..slots {
        black_box(&mut *state).step(black_box(store), black_box(&mut answer));
    }
}
