//! What a comparison has seen.

use super::covers::edges::EDGES;
use super::handmade::{CLAUSES, THIRD_CELLS};
use super::texts::faults::FAULTS;
use super::texts::SOUND;
use crate::model::Port;
use std::collections::BTreeMap;

/// The verdicts by number; no call gives 9.
pub const VERDICTS: [(usize, &str); 17] = [
    (0, "accepted"),
    (1, "N outside 1 to 16"),
    (2, "T outside 1 to 1,024"),
    (3, "list isn't N × N long"),
    (4, "row sum above T"),
    (5, "column sum above T"),
    (6, "Q outside 1 to 64"),
    (7, "store not N × N × Q long"),
    (8, "loaded plan has another N or T"),
    (10, "port not below N"),
    (11, "queue holds Q cells"),
    (12, "state out of bounds"),
    (13, "third cell"),
    (14, "mark or version"),
    (15, "file length"),
    (16, "text breaks a rule"),
    (17, "record shorter than l, or above 65,535"),
];

/// A way through the slot or an edge of a structure that a run has to reach.
#[derive(Clone, Copy)]
pub enum Branch {
    BoardIdle,
    BoardEmpty,
    BoardMoved,
    HeadIdle,
    HeadEmpty,
    HeadMoved,
    Takeover,
    FrameEnd,
    ArrivalWraps,
    MoveWraps,
    CrosspointFull,
    StoreOfOtherLength,
    LoadInMidFrame,
    ReplacedAtOnce,
    ReplacedAfterSlots,
    FedSinceStart,
    FedStretch,
    UpperShareReached,
    LowerShareReached,
    LowerShareReachedLater,
    RecordOfWholeFrames,
    RecordInMidFrame,
    RecordOfSeveralFrames,
    RecordWithIdleSlots,
    AsManyAsPromised,
    AsFewAsPromised,
}

const BRANCHES: [&str; 26] = [
    "board idle",
    "board empty",
    "board moved",
    "head idle",
    "head empty",
    "head moved",
    "takeover",
    "frame end",
    "ring wraps for an arrival",
    "ring wraps for a move",
    "crosspoint reaches two cells",
    "list of another length lent",
    "load accepted in mid-frame",
    "plan replaced before the next slot",
    "plan replaced after slots in which it waited",
    "lower share checked, fed since the start",
    "lower share checked, fed in the stretch",
    "upper share reached",
    "lower share reached, fed since the start",
    "lower share reached, fed in the stretch",
    "head's record ends with a frame",
    "head's record ends in mid-frame",
    "head's record is longer than two frames",
    "head's record has idle slots",
    "as many services as promised, l above 1",
    "as few services as promised, above 0",
];

/// Two eligible flows with one deadline, one of them chosen.
#[derive(Clone, Copy)]
pub enum Tie {
    EqualRates,
    LargerRateHigherNumber,
    LargerRateLowerNumber,
}

const TIES: [&str; 3] =
    ["equal rates, to the lower number", "to the larger rate, a higher number", "to the larger rate, a lower number"];

/// How often each was seen.
#[derive(Default, Debug, PartialEq)]
pub struct Ties([u64; TIES.len()]);

impl Ties {
    pub fn seen(&mut self, tie: Tie) {
        self.0[tie as usize] += 1;
    }
}

/// The frame whose deadlines the library reads from a table.
pub const TABLE_FRAME: u32 = 64;

/// Frames that runs have to have, and how many slots of runs may go by for each such run.
const FRAMES: [(u32, u64); 3] = [(TABLE_FRAME - 1, 1_000_000), (TABLE_FRAME, 100_000), (TABLE_FRAME + 1, 1_000_000)];

/// The entries of the table: services 1 to a of each rate a from 1 to 64.
const ENTRIES: u64 = 64 * 65 / 2;

/// Texts that are read, whatever the number of slots.
const LEAST_TEXTS: u64 = 140_000;

/// Measurements of heads' records for each million slots of runs.
const MEASUREMENTS_A_MILLION: u64 = 100_000;

/// Bytes that `waits` has to hold in hand-made states; a bool would have two of them.
const WAITS: [u8; 6] = [0, 1, 2, 3, 254, 255];

#[derive(Default, Debug, PartialEq)]
pub struct Tally {
    pub runs: u64,
    pub slots: u64,
    pub calls: u64,
    pub states: u64,
    pub inputs: u64,
    pub texts: u64,
    pub covers: u64,
    /// Those of them that were of a head's record in a run.
    pub recorded: u64,
    /// Second loads on hand-made states that came out as they do without the first.
    pub second_loads: u64,
    /// Entries of the table of deadlines that were found out by choices.
    pub entries: u64,
    /// Runs with each frame of `FRAMES`.
    frames: [u64; FRAMES.len()],
    /// Whole frames of one port, and hand-made states that hold, with `TABLE_FRAME`.
    pub port_frames: u64,
    pub table_states: u64,
    verdicts: [u64; VERDICTS[VERDICTS.len() - 1].0 + 1],
    branches: [u64; BRANCHES.len()],
    /// In choices by themselves.
    pub ties: Ties,
    /// In the slots of runs that were looked at for them.
    pub slot_ties: Ties,
    /// How often a clause was met at its limit, and how often past it.
    clauses: BTreeMap<&'static str, [u64; 2]>,
    /// How often a text of each name in `FAULTS` and `SOUND` got its verdict.
    named_texts: BTreeMap<&'static str, u64>,
    /// How often a record of each name in `EDGES` got its answer.
    edges: BTreeMap<&'static str, u64>,
    /// How often `waits` held each byte of `WAITS`, and last any other one: in states that hold, and in broken ones.
    waits: [[u64; 2]; WAITS.len() + 1],
}

impl Tally {
    pub fn verdict(&mut self, verdict: u32) {
        self.verdicts[verdict as usize] += 1;
    }

    /// A run with frames of so many slots.
    pub fn run(&mut self, frame: u32) {
        self.runs += 1;
        if let Some(place) = FRAMES.iter().position(|&(named, _)| named == frame) {
            self.frames[place] += 1;
        }
    }

    pub fn branch(&mut self, branch: Branch) {
        self.branches[branch as usize] += 1;
    }

    /// What one board and one head answered.
    pub fn ports(&mut self, board: &Port, head: &Port) {
        self.branch(match board {
            Port::Idle => Branch::BoardIdle,
            Port::Empty { .. } => Branch::BoardEmpty,
            Port::Moved { .. } => Branch::BoardMoved,
        });
        self.branch(match head {
            Port::Idle => Branch::HeadIdle,
            Port::Empty { .. } => Branch::HeadEmpty,
            Port::Moved { .. } => Branch::HeadMoved,
        });
    }

    pub fn clause(&mut self, name: &'static str, past: bool) {
        self.clauses.entry(name).or_default()[usize::from(past)] += 1;
    }

    pub fn named_text(&mut self, name: &'static str) {
        *self.named_texts.entry(name).or_default() += 1;
    }

    pub fn edge(&mut self, name: &'static str) {
        *self.edges.entry(name).or_default() += 1;
    }

    pub fn waits(&mut self, byte: u8, broken: bool) {
        let place = WAITS.iter().position(|&named| named == byte).unwrap_or(WAITS.len());
        self.waits[place][usize::from(broken)] += 1;
    }

    /// Texts and records that were made for an answer.
    fn named(&self) -> [(&'static str, Vec<(String, u64)>); 3] {
        let of = |counts: &BTreeMap<&'static str, u64>, name: &str| counts.get(name).copied().unwrap_or(0);
        let faults = FAULTS.iter().map(|(name, _, _)| (name.to_string(), of(&self.named_texts, name)));
        let sound = SOUND.iter().map(|(name, verdict, _)| (format!("{name}: {verdict}"), of(&self.named_texts, name)));
        let edges = EDGES.iter().map(|(name, _)| (name.to_string(), of(&self.edges, name)));
        [
            ("texts with one fault, each refused 16", faults.collect()),
            ("texts without a fault, each with its verdict", sound.collect()),
            ("records at the edges of the meter, each with its answer", edges.collect()),
        ]
    }

    /// Adds what another has counted.
    pub fn add(&mut self, other: &Tally) {
        self.runs += other.runs;
        self.slots += other.slots;
        self.calls += other.calls;
        self.states += other.states;
        self.inputs += other.inputs;
        self.texts += other.texts;
        self.covers += other.covers;
        self.recorded += other.recorded;
        self.second_loads += other.second_loads;
        self.entries += other.entries;
        self.port_frames += other.port_frames;
        self.table_states += other.table_states;
        add_each(&mut self.frames, &other.frames);
        add_each(&mut self.verdicts, &other.verdicts);
        add_each(&mut self.branches, &other.branches);
        add_each(&mut self.ties.0, &other.ties.0);
        add_each(&mut self.slot_ties.0, &other.slot_ties.0);
        for (sums, counts) in self.waits.iter_mut().zip(&other.waits) {
            add_each(sums, counts);
        }
        for (name, counts) in &other.clauses {
            add_each(self.clauses.entry(name).or_default(), counts);
        }
        for (sums, counts) in [(&mut self.named_texts, &other.named_texts), (&mut self.edges, &other.edges)] {
            counts.iter().for_each(|(name, count)| *sums.entry(name).or_default() += count);
        }
    }

    /// Prints all counts; answers what was met less often than it should be, where so many slots of runs were asked for.
    pub fn report(&self, slots: u64) -> Vec<String> {
        let mut missing = Vec::new();
        let mut at_least = |name: String, count: u64, least: u64| {
            println!("  {name:<48} {count:>12}");
            if count < least {
                missing.push(if least == 1 { name } else { format!("{name} ({count} of {least})") });
            }
        };
        println!("how much");
        at_least("slots of runs".to_string(), self.slots, slots);
        at_least("texts".to_string(), self.texts, LEAST_TEXTS);
        let measurements = slots / 1_000_000 * MEASUREMENTS_A_MILLION;
        at_least("measurements of heads' records".to_string(), self.recorded, measurements);
        at_least("entries of the table found out by choices".to_string(), self.entries, ENTRIES);
        for ((frame, slots_a_run), count) in FRAMES.into_iter().zip(self.frames) {
            at_least(format!("runs with T = {frame}"), count, slots / slots_a_run);
        }
        let mut line = |name: String, count: u64| at_least(name, count, 1);
        line(format!("frames of one port with T = {TABLE_FRAME}"), self.port_frames);
        line(format!("hand-made states that hold, T = {TABLE_FRAME}"), self.table_states);
        println!("verdicts");
        for (number, name) in VERDICTS {
            line(format!("{number} {name}"), self.verdicts[number]);
        }
        println!("branches in runs");
        for (name, &count) in BRANCHES.iter().zip(&self.branches) {
            line(name.to_string(), count);
        }
        println!("ties of deadlines");
        for (tie, name) in TIES.iter().enumerate() {
            line(format!("{name}, in a choice"), self.ties.0[tie]);
            line(format!("{name}, in a slot"), self.slot_ties.0[tie]);
        }
        for (heading, counts) in self.named() {
            println!("{heading}");
            counts.into_iter().for_each(|(name, count)| line(name, count));
        }
        println!("clauses of 12 and 13, and loads, in hand-made states");
        for (name, _) in CLAUSES.iter().chain(&THIRD_CELLS) {
            let [within, past] = self.clauses.get(name).copied().unwrap_or_default();
            line(format!("{name}, at the limit"), within);
            line(format!("{name}, past it"), past);
        }
        line("second load as without the first".to_string(), self.second_loads);
        println!("`waits` in hand-made states, each given to every call");
        let names = WAITS.iter().map(|byte| format!("waits {byte}")).chain(["waits, another byte".to_string()]);
        for (name, [valid, broken]) in names.zip(&self.waits) {
            line(format!("{name}, valid state"), *valid);
            line(format!("{name}, state refused 12"), *broken);
        }
        missing
    }
}

fn add_each(sums: &mut [u64], counts: &[u64]) {
    sums.iter_mut().zip(counts).for_each(|(sum, count)| *sum += count);
}
