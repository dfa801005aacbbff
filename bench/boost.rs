//! What boosting a plan costs: the proved library, a booster in plain Rust that keeps the sums of all lines, as the library
//! does, and the model, which adds a line up each time.

use crate::clock::{batches, best_of, time, BATCH};
use crate::ffi::Library;
use crate::model::plan::{column_sum, row_sum, LONGEST_FRAME, MOST_PORTS};
use crate::operations::{Model, Operations};
use crate::workload::{scaled_plan, Workload};
use std::hint::black_box;

const BOOSTS: usize = 1024;
/// The last period that a figure can begin with.
pub const LAST: u32 = u32::MAX - (BOOSTS as u32 - 1);

type Booster = fn(usize, u32, u32, &[u16], &mut [u16]) -> bool;

/// From the given period on: proved, sums kept in plain Rust, model.
pub fn boost_times(workload: &Workload, first: u32, repeats: usize) -> [f64; 3] {
    let boosters: [Booster; 3] = [proved, sums_kept, model];
    let given = scaled_plan(workload.ports, workload.frame);
    let mut lists = [0, 1, 2].map(|_| vec![0; workload.flows()]);
    best_of(repeats, &batches(BOOSTS, BATCH), |batch| {
        let times = [0, 1, 2].map(|booster| {
            let (boost, list) = (boosters[booster], &mut lists[booster]);
            time(|| {
                for turn in batch.clone() {
                    let period = first + turn as u32;
                    assert!(boost(workload.ports, workload.frame, period, black_box(&given), black_box(list)));
                }
            })
        });
        assert!(lists.iter().all(|list| *list == lists[0]), "a booster differs");
        times
    })
}

fn proved(ports: usize, frame: u32, period: u32, given: &[u16], rates: &mut [u16]) -> bool {
    Library::boost(ports, frame, period, given, rates) == 0
}

fn model(ports: usize, frame: u32, period: u32, given: &[u16], rates: &mut [u16]) -> bool {
    Model::boost(ports, frame, period, given, rates) == 0
}

#[inline(never)]
fn sums_kept(ports: usize, frame: u32, period: u32, given: &[u16], rates: &mut [u16]) -> bool {
    let right = ports * ports;
    // Not by `check_shape`, with whose answer all of it takes 7 percent longer.
    let shaped = (1..=MOST_PORTS).contains(&ports) && (1..=LONGEST_FRAME).contains(&frame);
    if !shaped || given.len() != right || rates.len() != right {
        return false;
    }
    let (mut rows, mut columns) = ([0; MOST_PORTS], [0; MOST_PORTS]);
    for line in 0..ports {
        rows[line] = row_sum(ports, given, line);
        columns[line] = column_sum(ports, given, line);
    }
    if rows.iter().chain(&columns).any(|sum| *sum > frame) {
        return false;
    }
    rates.copy_from_slice(given);
    let first = period as usize % ports;
    for diagonal in (first..ports).chain(0..first) {
        for input in 0..ports {
            let output = (input + diagonal) % ports;
            let spare = frame - rows[input].max(columns[output]);
            rates[input * ports + output] += spare as u16;
            rows[input] += spare;
            columns[output] += spare;
        }
    }
    true
}
