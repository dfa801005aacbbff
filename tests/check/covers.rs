//! The meter on records made for it: at the edges, with the answers that their making tells, and random ones.

pub mod edges;

use super::random::Random;
use super::same::{same, same_verdict, told};
use super::tally::Tally;
use crate::model::meter::IDLE_SLOT;
use crate::operations::{CoverReply, Model, Operations};
use edges::{Made, EDGES};

/// How often each edge is made.
const EDGE_ROUNDS: usize = 10;

/// Edges a fixed number of times, random records `rounds` times.
pub fn compare<S: Operations>(rounds: usize, random: &mut Random, tally: &mut Tally) -> Result<(), String> {
    for _ in 0..EDGE_ROUNDS {
        for (name, make) in EDGES {
            let made = make(random);
            made_cover::<S>(&made, tally).map_err(|what| format!("{name}: {what}"))?;
            tally.edge(name);
        }
    }
    for _ in 0..rounds {
        random_covers::<S>(random, tally)?;
    }
    Ok(())
}

/// One call on the subject and on the model; answers what the subject did.
pub fn cover<S: Operations>(record: &[u16], flow: u16, length: usize, tally: &mut Tally) -> Result<CoverReply, String> {
    let (subject, model) = (S::cover(record, flow, length), Model::cover(record, flow, length));
    tally.covers += 1;
    tally.verdict(model.verdict);
    same_verdict(subject.verdict, model.verdict)
        .and_then(|()| same("least", &subject.least, &model.least))
        .and_then(|()| same("most", &subject.most, &model.most))
        .map_err(|what| format!("{}: {what}", told_call(record, flow, length)))?;
    Ok(subject)
}

pub fn told_call(record: &[u16], flow: u16, length: usize) -> String {
    format!("cover of the record {}, {} slots, flow {flow} l {length}", told(record), record.len())
}

fn made_cover<S: Operations>(made: &Made, tally: &mut Tally) -> Result<(), String> {
    let Made { record, flow, length, expected } = made;
    let reply = cover::<S>(record, *flow, *length, tally)?;
    if reply != *expected {
        return Err(format!("{}: {reply:?}, expected {expected:?}", told_call(record, *flow, *length)));
    }
    Ok(())
}

/// One record of few different numbers, measured for a flow of it and for one of any number.
fn random_covers<S: Operations>(random: &mut Random, tally: &mut Tally) -> Result<(), String> {
    let record = random_record(random);
    let any = random.next() as u16;
    let some = if record.is_empty() { any } else { random.pick(&record) };
    for flow in [some, random.pick(&[0, IDLE_SLOT, any])] {
        let inside = random.below(record.len() + 1);
        let at_the_end = random.pick(&[record.len().saturating_sub(1), record.len(), record.len() + 1]);
        for length in [inside, random.pick(&[0, 1, 2, at_the_end])] {
            cover::<S>(&record, flow, length, tally)?;
        }
    }
    Ok(())
}

/// Short ones more often, and those of the greatest length now and then.
fn random_record(random: &mut Random) -> Vec<u16> {
    let length = match random.below(400) {
        0 => random.within(65_533, 65_538),
        1..=20 => random.below(3_000),
        _ => random.below(40),
    };
    let numbers: Vec<u16> = (0..random.within(1, 4)).map(|_| random_number(random)).collect();
    let mut record: Vec<u16> = (0..length).map(|_| random.pick(&numbers)).collect();
    // Runs of one number make stretches with many services and with none.
    for _ in 0..random.below(4) {
        let (first, number) = (random.below(length + 1), random.pick(&numbers));
        let end = random.within(first, length);
        record[first..end].fill(number);
    }
    record
}

fn random_number(random: &mut Random) -> u16 {
    match random.below(3) {
        0 => random.below(16) as u16,
        1 => random.pick(&[IDLE_SLOT, IDLE_SLOT - 1, 0, 1]),
        _ => random.next() as u16,
    }
}
