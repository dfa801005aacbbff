//! Compares the proved library with the model.
//!
//!     rustc --edition 2021 -O tests/compare.rs -L target/staticlib -o target/compare
//!     target/compare [slots] [seed]
//!
//! Five parts: the cases of the scope on the library, every operation on edge and random inputs, the meter on
//! records made for it, hand-made states, and random runs until at least that many slots were compared. The runs are in two
//! halves, which go side by side with the other parts and with each other, and share no run. Each part, and each half, ends
//! at its first difference. The program exits with 1 if one was found, if the halves share a run, or if something that the
//! tally demands, a refusal, a branch or a kind of text or record among it, was not met as often as it should be.

mod cases;
mod check;
mod ffi;
mod model;
mod operations;

use check::halves::{seeds, shared, HALVES};
use check::random::Random;
use check::tally::Tally;
use check::{covers, inputs, runs, states};
use ffi::Library;
use std::process::ExitCode;
use std::thread;
use std::time::{Instant, SystemTime, UNIX_EPOCH};

const SLOTS: u64 = 10_000_000;
const INPUT_ROUNDS: usize = 5_000;
const COVER_ROUNDS: usize = 10_000;
const STATE_ROUNDS: usize = 1_500;

type Part = fn(seed: u64, tally: &mut Tally) -> Result<(), String>;
const PARTS: [(&str, Part); 4] =
    [("cases", all_cases), ("inputs", all_inputs), ("covers", all_covers), ("states", all_states)];

/// What was compared side by side with the others.
#[derive(Default)]
struct Compared {
    tally: Tally,
    /// The seeds of its runs.
    seeds: Vec<u64>,
    /// The names of what found a difference.
    differing: Vec<String>,
}

fn main() -> ExitCode {
    let mut numbers = std::env::args().skip(1).map(|argument| argument.parse::<u64>());
    let (slots, seed) = match (numbers.next(), numbers.next(), numbers.next()) {
        (None, None, None) => (SLOTS, seed_of_the_clock()),
        (Some(Ok(slots)), None, None) => (slots, seed_of_the_clock()),
        (Some(Ok(slots)), Some(Ok(seed)), None) => (slots, seed),
        _ => {
            eprintln!("use: compare [slots] [seed]");
            return ExitCode::from(2);
        }
    };
    println!("compare: {slots} slots, seed {seed}");
    let begun = Instant::now();
    let (parts, halves) = thread::scope(|scope| {
        let halves = [0, 1].map(|half| scope.spawn(move || half_of_runs(half, (slots + half) / HALVES, seed)));
        (all_parts(seed), halves.map(|half| half.join().expect("a half tells what it found")))
    });
    match told(slots, parts, halves) {
        Ok(counts) => {
            println!("no difference: {counts}; seed {seed}, {} s", begun.elapsed().as_secs());
            ExitCode::SUCCESS
        }
        Err(what) => {
            println!("{what}; to see it again: compare {slots} {seed}");
            ExitCode::FAILURE
        }
    }
}

/// What all have found together: the counts, or what is wrong.
fn told(slots: u64, parts: Compared, halves: [Compared; HALVES as usize]) -> Result<String, String> {
    for (half, Compared { seeds, .. }) in halves.iter().enumerate() {
        if let [first, .., last] | [first @ last] = seeds[..] {
            println!("half {half} of the runs: {} of them, of seeds {first} to {last}, {HALVES} apart", seeds.len());
        }
    }
    let both = shared(&halves[0].seeds, &halves[1].seeds);
    let mut tally = parts.tally;
    let mut differing = parts.differing;
    for half in halves {
        tally.add(&half.tally);
        differing.extend(half.differing);
    }
    if !differing.is_empty() {
        return Err(format!("the library and the model differ in {}", differing.join(", ")));
    }
    if !both.is_empty() {
        return Err(format!("the halves share the runs of seeds {both:?}"));
    }
    let missing = tally.report(slots);
    if !missing.is_empty() {
        return Err(format!("not met as often as it should be: {}", missing.join(", ")));
    }
    Ok(counts(&tally))
}

fn counts(tally: &Tally) -> String {
    let Tally { slots, calls, runs, states, inputs, texts, covers, recorded, .. } = tally;
    [
        format!("{slots} slots and {calls} calls in {runs} runs"),
        format!("{states} calls on hand-made states"),
        format!("{inputs} inputs of operations, {texts} of them texts"),
        format!("{covers} measurements, {recorded} of them of records of runs"),
    ]
    .join(", ")
}

/// All but the runs.
fn all_parts(seed: u64) -> Compared {
    let mut compared = Compared::default();
    for (part, compare) in PARTS {
        let outcome = compare(seed, &mut compared.tally);
        compared.end(part, outcome);
    }
    compared
}

/// Run after run, each with its own seed.
fn half_of_runs(half: u64, slots: u64, seed: u64) -> Compared {
    let mut compared = Compared::default();
    let mut outcome = Ok(());
    let mut printed = 0;
    for run_seed in seeds(seed, half) {
        if compared.tally.slots >= slots || outcome.is_err() {
            break;
        }
        if compared.tally.slots >= printed {
            println!("half {half} of the runs: {} slots agree, next the run of seed {run_seed}", compared.tally.slots);
            printed += slots.div_ceil(5);
        }
        outcome = runs::random_run::<Library>(run_seed, &mut compared.tally).map_err(|failure| failure.to_string());
        compared.seeds.push(run_seed);
    }
    compared.end(&format!("half {half} of the runs"), outcome);
    compared
}

impl Compared {
    fn end(&mut self, name: &str, outcome: Result<(), String>) {
        match outcome {
            Ok(()) => println!("{name}: no difference"),
            Err(difference) => {
                println!("{name}: DIFFERENCE, {difference}");
                self.differing.push(name.to_string());
            }
        }
    }
}

fn all_cases(_seed: u64, _tally: &mut Tally) -> Result<(), String> {
    std::panic::catch_unwind(cases::all::<Library>).map_err(|_| "a case of the scope fails, see above".to_string())
}

fn all_inputs(seed: u64, tally: &mut Tally) -> Result<(), String> {
    inputs::compare::<Library>(INPUT_ROUNDS, &mut Random::new(seed), tally)
}

fn all_covers(seed: u64, tally: &mut Tally) -> Result<(), String> {
    covers::compare::<Library>(COVER_ROUNDS, &mut Random::new(seed), tally)
}

fn all_states(seed: u64, tally: &mut Tally) -> Result<(), String> {
    states::compare::<Library>(STATE_ROUNDS, &mut Random::new(seed), tally)
}

fn seed_of_the_clock() -> u64 {
    let clock = SystemTime::now().duration_since(UNIX_EPOCH).expect("the clock is past 1970");
    clock.as_nanos() as u64 % 1_000_000_000_000
}
