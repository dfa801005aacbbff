//! What the calls between slots cost: an arrival and a load, each accepted.

use crate::clock::{batches, best_of, time, BATCH};
use crate::ffi::Library;
use crate::model::{by_value, Refusal, Switch};
use crate::operations::Operations;
use crate::workload::{fill_queues, Arrival, Workload, DEPTH};
use std::hint::black_box;

const ARRIVALS: usize = 4096;
const LOADS: usize = 4096;

/// Proved, by value, in place.
pub fn arrival_times(workload: &Workload, repeats: usize) -> [f64; 3] {
    let implementations: [fn(&mut Switch, &mut [u32], &[Arrival]); 3] =
        [proved_arrivals, by_value_arrivals, in_place_arrivals];
    let arrivals: Vec<Arrival> = (0..ARRIVALS).map(|number| workload.arrival(number)).collect();
    let mut states = [workload.mid_frame(); 3];
    let mut stores = [0, 1, 2].map(|_| workload.store.clone());
    best_of(repeats, &batches(ARRIVALS, batch_arrivals(workload)), |batch| {
        let arrivals = &arrivals[batch];
        let times = [0, 1, 2].map(|implementation| {
            let (state, store) = (&mut states[implementation], &mut stores[implementation]);
            fill_queues(state, DEPTH / 2);
            time(|| implementations[implementation](state, store, arrivals))
        });
        assert!(states[0] == states[1] && states[1] == states[2], "the implementations differ");
        assert!(stores[0] == stores[1] && stores[1] == stores[2], "the stores differ");
        times
    })
}

/// Within a batch no queue gets full; between batches, off the clock, all are half emptied again.
fn batch_arrivals(workload: &Workload) -> usize {
    BATCH.min(workload.flows() * DEPTH / 2)
}

fn proved_arrivals(state: &mut Switch, store: &mut [u32], arrivals: &[Arrival]) {
    for &Arrival { input, output, cell } in arrivals {
        let reply = Library::arrive(black_box(state), black_box(&mut *store), input, output, cell);
        assert_eq!(reply.verdict, 0);
        *state = reply.state;
    }
}

fn by_value_arrivals(state: &mut Switch, store: &mut [u32], arrivals: &[Arrival]) {
    #[inline(never)]
    fn arrive(
        state: Switch,
        store: &mut [u32],
        input: usize,
        output: usize,
        cell: u32,
    ) -> (Switch, Result<(), Refusal>) {
        by_value::arrive(state, store, input, output, cell)
    }
    for &Arrival { input, output, cell } in arrivals {
        let (next, outcome) = arrive(*black_box(&mut *state), black_box(&mut *store), input, output, cell);
        assert!(outcome.is_ok());
        *state = next;
    }
}

fn in_place_arrivals(state: &mut Switch, store: &mut [u32], arrivals: &[Arrival]) {
    #[inline(never)]
    fn arrive(state: &mut Switch, store: &mut [u32], input: usize, output: usize, cell: u32) -> Result<(), Refusal> {
        state.arrive(store, input, output, cell)
    }
    for &Arrival { input, output, cell } in arrivals {
        let outcome = arrive(black_box(&mut *state), black_box(&mut *store), input, output, cell);
        assert!(outcome.is_ok());
    }
}

/// Proved, by value, in place.
pub fn load_times(workload: &Workload, repeats: usize) -> [f64; 3] {
    let implementations: [fn(&mut Switch, &Workload, &[u16], usize); 3] =
        [proved_loads, by_value_loads, in_place_loads];
    let mut states = [workload.mid_frame(); 3];
    let rates = workload.next_rates();
    best_of(repeats, &batches(LOADS, BATCH), |batch| {
        let times = [0, 1, 2].map(|implementation| {
            let state = &mut states[implementation];
            time(|| implementations[implementation](state, workload, &rates, batch.len()))
        });
        assert!(states[0] == states[1] && states[1] == states[2], "the implementations differ");
        times
    })
}

// Before each load the waiting plan is dropped, so that none is replaced. That is one byte written, and is timed
// with all three.

fn proved_loads(state: &mut Switch, workload: &Workload, rates: &[u16], loads: usize) {
    for _ in 0..loads {
        state.waits = 0;
        let reply = Library::load(black_box(state), workload.ports, workload.frame, black_box(rates));
        assert_eq!(reply.verdict, 0);
        *state = reply.state;
    }
}

fn by_value_loads(state: &mut Switch, workload: &Workload, rates: &[u16], loads: usize) {
    #[inline(never)]
    fn load(state: Switch, ports: usize, frame: u32, rates: &[u16]) -> (Switch, Result<(), Refusal>) {
        by_value::load(state, ports, frame, rates)
    }
    for _ in 0..loads {
        state.waits = 0;
        let (next, outcome) = load(*black_box(&mut *state), workload.ports, workload.frame, black_box(rates));
        assert!(outcome.is_ok());
        *state = next;
    }
}

fn in_place_loads(state: &mut Switch, workload: &Workload, rates: &[u16], loads: usize) {
    #[inline(never)]
    fn load(state: &mut Switch, ports: usize, frame: u32, rates: &[u16]) -> Result<(), Refusal> {
        state.load(ports, frame, rates)
    }
    for _ in 0..loads {
        state.waits = 0;
        let outcome = load(black_box(&mut *state), workload.ports, workload.frame, black_box(rates));
        assert!(outcome.is_ok());
    }
}
