//! What measuring a record costs, for a slot of it: the proved library, a meter in plain Rust that goes through the record
//! once, as the library does, with one addition and one subtraction a slot, and the model, which adds up the services
//! before each slot first.

use crate::clock::{best_of, time};
use crate::ffi::Library;
use crate::model::meter::{Stretch, IDLE_SLOT, LONGEST_RECORD};
use crate::model::Multiplexer;
use crate::operations::{CoverReply, Model, Operations};
use crate::workload::Workload;
use std::hint::black_box;

pub const LENGTHS: [usize; 6] = [1, 16, 256, 4_096, 32_768, LONGEST_RECORD];

/// What head 0 chooses in the longest record.
pub fn longest_record(workload: &Workload) -> Vec<u16> {
    let column: Vec<u16> = workload.rates.iter().step_by(workload.ports).copied().collect();
    let mut head = Multiplexer::ZERO;
    let choices = (0..workload.frame).map(|slot| {
        let choice = head.choose(&column, workload.frame, slot);
        head.count(choice);
        choice.map_or(IDLE_SLOT, |input| input as u16)
    });
    let frame: Vec<u16> = choices.collect();
    frame.into_iter().cycle().take(LONGEST_RECORD).collect()
}

/// Of board 0 in stretches of so many slots: proved, one pass in plain Rust, model.
pub fn cover_times(record: &[u16], length: usize, repeats: usize) -> [f64; 3] {
    let meters: [fn(&[u16], u16, usize) -> CoverReply; 3] = [Library::cover, one_pass, Model::cover];
    let expected = Model::cover(record, 0, length);
    assert_eq!(expected.verdict, 0);
    let whole_record = 0..record.len();
    best_of(repeats, &[whole_record], |_| {
        meters.map(|cover| {
            time(|| assert_eq!(black_box(cover(black_box(record), 0, black_box(length))), expected, "a meter differs"))
        })
    })
}

#[inline(never)]
fn one_pass(record: &[u16], flow: u16, length: usize) -> CoverReply {
    let none = Stretch { services: 0, place: 0 };
    if length > record.len() || record.len() > LONGEST_RECORD {
        return CoverReply { verdict: 17, least: none, most: none };
    }
    let mut services = 0;
    for &served in &record[..length] {
        services += usize::from(served == flow);
    }
    let first = Stretch { services, place: 0 };
    let (mut least, mut most) = (first, first);
    for (before, (&left, &entered)) in record.iter().zip(&record[length..]).enumerate() {
        services = services + usize::from(entered == flow) - usize::from(left == flow);
        if services < least.services {
            least = Stretch { services, place: before + 1 };
        }
        if services > most.services {
            most = Stretch { services, place: before + 1 };
        }
    }
    CoverReply { verdict: 0, least, most }
}
