//! What one port's choice costs: the proved library, the model by value and in place, and plain Rust that goes about it as
//! the library does.

use crate::clock::{batches, best_of, time, BATCH};
use crate::ffi::Library;
use crate::model::Multiplexer;
use crate::operations::{Choice, Model, Operations};
use crate::slot::SLOTS;
use crate::workload::Workload;
use std::hint::black_box;

/// Board 0's choices, each from the counts that it meets in the frame: proved, by value, in place, ranked in plain Rust.
pub fn choice_times(workload: &Workload, repeats: usize) -> [f64; 4] {
    let frame = workload.frame;
    let rates = &workload.rates[..workload.ports];
    let met = met_counts(rates, frame);
    let implementations: [fn(&[(u32, Multiplexer)], &[u16], u32); 4] =
        [proved_choices, by_value_choices, in_place_choices, ranked_choices];
    best_of(repeats * (SLOTS / frame) as usize, &batches(met.len(), BATCH), |batch| {
        let met = &met[batch];
        implementations.map(|choose| time(|| choose(met, rates, frame)))
    })
}

/// Each slot with the counts that the port meets there; all choose alike.
fn met_counts(rates: &[u16], frame: u32) -> Vec<(u32, Multiplexer)> {
    let mut multiplexer = Multiplexer::ZERO;
    let mut met = Vec::new();
    for slot in 0..frame {
        met.push((slot, multiplexer));
        let choice = multiplexer.choose(rates, frame, slot);
        assert_eq!(Library::choose(&multiplexer, rates, frame, slot), Choice::from(choice));
        assert_eq!(ranked(multiplexer, rates, frame, slot), Choice::from(choice));
        multiplexer.count(choice);
    }
    met
}

fn proved_choices(batch: &[(u32, Multiplexer)], rates: &[u16], frame: u32) {
    for (slot, multiplexer) in batch {
        black_box(Library::choose(black_box(multiplexer), black_box(rates), frame, *slot));
    }
}

fn by_value_choices(batch: &[(u32, Multiplexer)], rates: &[u16], frame: u32) {
    #[inline(never)]
    fn choose(multiplexer: Multiplexer, rates: &[u16], frame: u32, slot: u32) -> Choice {
        Model::choose(&multiplexer, rates, frame, slot)
    }
    for (slot, multiplexer) in batch {
        black_box(choose(*black_box(multiplexer), black_box(rates), frame, *slot));
    }
}

fn in_place_choices(batch: &[(u32, Multiplexer)], rates: &[u16], frame: u32) {
    #[inline(never)]
    fn choose(multiplexer: &Multiplexer, rates: &[u16], frame: u32, slot: u32) -> Option<usize> {
        multiplexer.choose(rates, frame, slot)
    }
    for (slot, multiplexer) in batch {
        black_box(choose(black_box(multiplexer), black_box(rates), frame, *slot));
    }
}

fn ranked_choices(batch: &[(u32, Multiplexer)], rates: &[u16], frame: u32) {
    for (slot, multiplexer) in batch {
        black_box(ranked(*black_box(multiplexer), black_box(rates), frame, *slot));
    }
}

/// One number of deadline and rate for each flow, and the smallest one.
#[inline(never)]
fn ranked(multiplexer: Multiplexer, rates: &[u16], frame: u32, slot: u32) -> Choice {
    ranked_by(multiplexer, rates, frame, slot, |rate, served| ((u64::from(served) + 1) * u64::from(frame)).div_ceil(u64::from(rate.max(1))))
}

#[inline(always)]
fn ranked_by(multiplexer: Multiplexer, rates: &[u16], frame: u32, slot: u32, due: impl Fn(u16, u16) -> u64) -> Choice {
    const NEVER: u64 = (1 << 48) - 1;
    let (frame, slot) = (u64::from(frame), u64::from(slot));
    let mut best = (NEVER << 16, None);
    for (flow, (&rate, served)) in rates.iter().zip(multiplexer.served).enumerate() {
        let early = u64::from(served) * frame > slot * u64::from(rate);
        let deadline = due(rate, served);
        let rank = if rate == 0 || early { NEVER } else { deadline } << 16 | u64::from(!rate);
        if rank < best.0 {
            best = (rank, Some(flow));
        }
    }
    best.1.into()
}

/// The frames that the library reads deadlines for.
pub const TABLE_FRAME: u32 = 64;
const ENTRIES: usize = 64 * 65 / 2;
static TABLE: [u8; ENTRIES] = table();

/// For rates from 1 to 64 and their services, in that order.
const fn table() -> [u8; ENTRIES] {
    let (mut table, mut place, mut rate) = ([0; ENTRIES], 0, 1);
    while rate <= TABLE_FRAME {
        let mut service = 1;
        while service <= rate {
            table[place] = (service * TABLE_FRAME).div_ceil(rate) as u8;
            place += 1;
            service += 1;
        }
        rate += 1;
    }
    table
}

/// As `ranked`, with deadlines read: the place is that of a service to come, or any other where there is none.
#[inline(never)]
fn read(multiplexer: Multiplexer, rates: &[u16], slot: u32) -> Choice {
    ranked_by(multiplexer, rates, TABLE_FRAME, slot, |rate, served| {
        let rate = usize::from(rate);
        u64::from(TABLE[(rate * rate.saturating_sub(1) / 2 + usize::from(served)).min(ENTRIES - 1)])
    })
}

/// A choice in plain Rust with deadlines read.
pub fn read_time(workload: &Workload, repeats: usize) -> f64 {
    let rates = &workload.rates[..workload.ports];
    let met = met_counts(rates, TABLE_FRAME);
    for (slot, multiplexer) in &met {
        assert_eq!(read(*multiplexer, rates, *slot), ranked(*multiplexer, rates, TABLE_FRAME, *slot));
    }
    let [time] = best_of(repeats * (SLOTS / TABLE_FRAME) as usize, &batches(met.len(), BATCH), |batch| {
        [time(|| {
            for (slot, multiplexer) in &met[batch] {
                black_box(read(*black_box(multiplexer), black_box(rates), *slot));
            }
        })]
    });
    time
}
