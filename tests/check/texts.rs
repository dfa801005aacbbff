//! Plans as comma-separated text.

pub mod damage;
pub mod faults;

use super::plans;
use super::random::Random;
use crate::model::plan::{LONGEST_FRAME, MOST_PORTS};

/// A plan and its text in parts, so that a part can be spoiled by itself.
pub struct PlanText {
    pub ports: usize,
    pub frame: u32,
    pub rates: Vec<u16>,
    records: Vec<Record>,
}

struct Record {
    fields: Vec<String>,
    end: &'static str,
}

/// How fields are written: without quotes or with them, in as few digits as can be or in five.
#[derive(Clone, Copy)]
pub enum Writing {
    Plain,
    Quoted,
    PlainFive,
    QuotedFive,
    /// Each field in its own way.
    Mixed,
}

pub const WRITINGS: [Writing; 5] =
    [Writing::Plain, Writing::Quoted, Writing::PlainFive, Writing::QuotedFive, Writing::Mixed];

impl PlanText {
    /// Every record ends in CR LF, the last one too.
    pub fn new(random: &mut Random, writing: Writing, ports: usize, frame: u32, rates: &[u16]) -> PlanText {
        let fields: Vec<String> = rates.iter().map(|&rate| field(random, writing, rate)).collect();
        let records = fields.chunks(ports).map(|fields| Record { fields: fields.to_vec(), end: "\r\n" }).collect();
        PlanText { ports, frame, rates: rates.to_vec(), records }
    }

    /// An accepted plan.
    pub fn accepted(random: &mut Random, writing: Writing, ports: usize) -> PlanText {
        let frame = random.pick(&[1, 15, 1000, LONGEST_FRAME]);
        let rates = plans::accepted(random, ports, frame);
        PlanText::new(random, writing, ports, frame, &rates)
    }

    /// An accepted plan in any writing.
    pub fn any(random: &mut Random, ports: usize) -> PlanText {
        let writing = random.pick(&WRITINGS);
        let mut text = PlanText::accepted(random, writing, ports);
        text.last().end = random.pick(&["", "\r\n"]);
        text
    }

    pub fn bytes(&self) -> Vec<u8> {
        let records = self.records.iter().map(|record| record.fields.join(",") + record.end);
        records.collect::<String>().into_bytes()
    }

    fn last(&mut self) -> &mut Record {
        self.records.last_mut().expect("a plan has a record")
    }
}

fn field(random: &mut Random, writing: Writing, rate: u16) -> String {
    let (quote, digits) = match writing {
        Writing::Plain => ("", 1),
        Writing::Quoted => ("\"", 1),
        Writing::PlainFive => ("", 5),
        Writing::QuotedFive => ("\"", 5),
        Writing::Mixed => (random.pick(&["", "\""]), random.within(1, 5)),
    };
    format!("{quote}{rate:0digits$}{quote}")
}

/// Texts that keep to the rules, next to those of `faults`: name, verdict, and how one is made.
pub const SOUND: [(&str, u32, fn(&mut Random) -> PlanText); 11] = [
    ("plain fields", 0, |random| of_any_ports(random, Writing::Plain)),
    ("quoted fields", 0, |random| of_any_ports(random, Writing::Quoted)),
    ("plain and quoted fields", 0, |random| of_any_ports(random, Writing::Mixed)),
    ("five digits with leading zeros", 0, |random| of_any_ports(random, Writing::PlainFive)),
    ("last record without CR LF", 0, without_last_end),
    ("every row and column sum T", 0, full_lines),
    ("longest text of N, 8 N² + N bytes", 0, |random| of_any_ports(random, Writing::QuotedFive)),
    ("longest text of all, 2,064 bytes", 0, |random| PlanText::accepted(random, Writing::QuotedFive, MOST_PORTS)),
    ("65,535 in a field", 4, |random| with_rate(random, |_| u16::MAX)),
    ("row sum one above T", 4, |random| with_rate(random, |frame| frame + 1)),
    ("column sum one above T", 5, column_above),
];

fn of_any_ports(random: &mut Random, writing: Writing) -> PlanText {
    let ports = random.within(1, MOST_PORTS);
    PlanText::accepted(random, writing, ports)
}

fn without_last_end(random: &mut Random) -> PlanText {
    let mut text = of_any_ports(random, Writing::Mixed);
    text.last().end = "";
    text
}

fn full_lines(random: &mut Random) -> PlanText {
    let PlanText { ports, frame, rates, .. } = of_any_ports(random, Writing::Plain);
    let full = plans::boosted(ports, frame, random.period(), &rates);
    PlanText::new(random, Writing::Mixed, ports, frame, &full)
}

/// One flow has this rate, the others of its row have 0.
fn with_rate(random: &mut Random, rate: fn(frame: u16) -> u16) -> PlanText {
    let PlanText { ports, frame, mut rates, .. } = of_any_ports(random, Writing::Plain);
    let flow = random.below(ports * ports);
    rates[flow / ports * ports..][..ports].fill(0);
    rates[flow] = rate(frame as u16);
    PlanText::new(random, Writing::Mixed, ports, frame, &rates)
}

/// Two boards have T + 1 slots for one head between them.
fn column_above(random: &mut Random) -> PlanText {
    let ports = random.within(2, MOST_PORTS);
    let frame = random.frame();
    let mut rates = vec![0; ports * ports];
    let (first, output) = (random.below(ports), random.below(ports));
    let second = (first + random.within(1, ports - 1)) % ports;
    rates[first * ports + output] = frame as u16;
    rates[second * ports + output] = 1;
    PlanText::new(random, Writing::Mixed, ports, frame, &rates)
}
