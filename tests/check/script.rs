//! The random script of a run: its start and its calls.

use super::plans;
use super::random::Random;
use super::runs::{Call, Start};
use super::tally::TABLE_FRAME;
use crate::model::plan::LONGEST_FRAME;
use crate::model::{Port, SlotAnswer};

/// How cells come to the queues.
enum Feeding {
    /// Each cell that a board moved is followed up by another, except for one in so many.
    Backlog { leak: usize },
    /// So many arrivals a slot at most, for any flow.
    Trickle { most: usize },
    /// Now and then one flow gets more than its queue can take.
    Bursts,
    /// One flow alone is fed.
    Single { input: usize, output: usize },
}

pub struct Script {
    pub start: Start,
    random: Random,
    feeding: Feeding,
    slots: usize,
    /// Calls that come before the next step, last one first.
    pending: Vec<Call>,
    /// The plan that was last loaded, from which a next one is varied.
    plan: Vec<u16>,
    /// One slot in so many is preceded by a load, or by a call that is refused.
    load_odds: usize,
    refusal_odds: usize,
}

impl Script {
    pub fn new(seed: u64) -> Script {
        let mut random = Random::new(seed);
        let ports = random_ports(&mut random);
        let frame = random_frame(&mut random);
        let depth = random_depth(&mut random);
        let plan = plans::accepted(&mut random, ports, frame);
        let start = Start { ports, frame, rates: plan.clone(), depth, store_seed: random.next() };
        let feeding = random_feeding(&mut random, ports);
        let slots = random_length(&mut random, ports, frame);
        let load_odds = match random.below(4) {
            0 => slots * 4,
            1 => 2 + frame as usize * 3,
            _ => 2 + frame as usize / 2,
        };
        let refusal_odds = random.pick(&[20, 100, 1000]);
        let mut script = Script { start, random, feeding, slots, pending: Vec::new(), plan, load_odds, refusal_odds };
        script.fill_queues();
        script
    }

    pub fn next_call(&mut self) -> Option<Call> {
        if let Some(call) = self.pending.pop() {
            return Some(call);
        }
        if self.slots == 0 {
            return None;
        }
        if self.random.one_in(self.load_odds) {
            return Some(self.loads());
        }
        if self.random.one_in(self.refusal_odds) {
            return Some(self.refused_call());
        }
        self.slots -= 1;
        Some(Call::Step { lent: None })
    }

    /// Arrivals that follow a slot.
    pub fn answered(&mut self, answer: &SlotAnswer) {
        let Start { ports, depth, .. } = self.start;
        match self.feeding {
            Feeding::Backlog { leak } => {
                for (input, board) in answer.moves.iter().enumerate() {
                    if let Port::Moved { other, .. } = *board {
                        if !self.random.one_in(leak) {
                            self.arrival(input, other);
                        }
                    }
                }
            }
            Feeding::Trickle { most } => {
                for _ in 0..self.random.below(most + 1) {
                    self.arrival_anywhere();
                }
            }
            Feeding::Bursts => {
                if self.random.one_in(8 * depth) {
                    let (input, output) = (self.random.below(ports), self.random.below(ports));
                    for _ in 0..self.random.within(1, depth + 2) {
                        self.arrival(input, output);
                    }
                }
            }
            Feeding::Single { input, output } => {
                if self.random.one_in(2) {
                    self.arrival(input, output);
                }
            }
        }
    }

    /// A backlog stands from the start.
    fn fill_queues(&mut self) {
        let Feeding::Backlog { .. } = self.feeding else { return };
        let Start { ports, depth, .. } = self.start;
        let cells = self.random.within(1, depth.min(4));
        for input in 0..ports {
            for output in 0..ports {
                for _ in 0..cells {
                    self.arrival(input, output);
                }
            }
        }
    }

    fn arrival(&mut self, input: usize, output: usize) {
        let cell = self.random.cell();
        self.pending.push(Call::Arrive { input, output, cell, lent: None });
    }

    fn arrival_anywhere(&mut self) {
        let ports = self.start.ports;
        let (input, output) = (self.random.below(ports), self.random.below(ports));
        self.arrival(input, output);
    }

    /// One load, or several before the next slot, with an arrival or a refused load here and there.
    fn loads(&mut self) -> Call {
        let Start { ports, frame, .. } = self.start;
        for _ in 0..self.random.pick(&[0, 0, 1, 1, 2, 5]) {
            let load = self.next_load();
            self.pending.push(load);
            match self.random.below(6) {
                0 => self.arrival_anywhere(),
                1 => {
                    let load = self.refused_load(ports, frame);
                    self.pending.push(load);
                }
                _ => {}
            }
        }
        self.next_load()
    }

    fn next_load(&mut self) -> Call {
        let Start { ports, frame, .. } = self.start;
        self.plan = match self.random.below(4) {
            0 => plans::accepted(&mut self.random, ports, frame),
            1 => plans::boosted(ports, frame, self.random.period(), &self.plan),
            _ => plans::neighbour(&mut self.random, ports, frame, &self.plan),
        };
        Call::Load { ports, frame, rates: self.plan.clone() }
    }

    /// A call that is refused, for one reason or another.
    fn refused_call(&mut self) -> Call {
        let Start { ports, frame, depth, .. } = self.start;
        let random = &mut self.random;
        let no_port = random.pick(&[ports, ports + 1, 16, 255, usize::MAX]).max(ports);
        let any_port = random.below(ports);
        let cell = random.cell();
        let store = ports * ports * depth;
        let lent = random.pick(&[0, 1, store - 1, store + 1, 2 * store, 65_536]);
        let lent = Some(if lent == store { store + 3 } else { lent });
        match random.below(12) {
            0 => Call::Arrive { input: no_port, output: any_port, cell, lent: None },
            1 => Call::Arrive { input: any_port, output: no_port, cell, lent: None },
            2 => Call::Arrive { input: any_port, output: any_port, cell, lent },
            3 => Call::Arrive { input: no_port, output: no_port, cell, lent },
            4 | 5 => Call::Step { lent },
            6 => {
                for _ in 0..depth {
                    self.arrival(any_port, any_port);
                }
                Call::Arrive { input: any_port, output: any_port, cell, lent: None }
            }
            _ => self.refused_load(ports, frame),
        }
    }

    fn refused_load(&mut self, ports: usize, frame: u32) -> Call {
        let random = &mut self.random;
        let mut rates = self.plan.clone();
        let (input, output) = (random.below(ports), random.below(ports));
        match random.below(7) {
            0 => Call::Load { ports: random.pick(&[0, 17, usize::MAX]), frame, rates },
            1 => Call::Load { ports, frame: random.pick(&[0, LONGEST_FRAME + 1, u32::MAX]), rates },
            2 => {
                rates.push(0);
                Call::Load { ports, frame, rates }
            }
            3 => {
                rates[input * ports..][..ports].fill(0);
                rates[input * ports + output] = frame as u16 + 1;
                Call::Load { ports, frame, rates }
            }
            4 => {
                for other in 0..ports {
                    rates[other * ports..][..ports].fill(0);
                    rates[other * ports + output] = frame as u16;
                }
                Call::Load { ports, frame, rates }
            }
            5 => {
                let frame = if frame == 1 { 2 } else { random.pick(&[frame - 1, frame + 1]).min(LONGEST_FRAME) };
                Call::Load { ports, frame, rates: plans::accepted(random, ports, frame) }
            }
            _ => {
                let ports = if ports == 16 { 15 } else { ports + 1 };
                Call::Load { ports, frame, rates: plans::accepted(random, ports, frame) }
            }
        }
    }
}

/// Few ports more often: their slots are cheap, and crossings fill as well.
fn random_ports(random: &mut Random) -> usize {
    match random.below(8) {
        0 => 1,
        1..=5 => random.within(2, 4),
        6 => random.within(5, 9),
        _ if random.flip() => 16,
        _ => random.within(10, 15),
    }
}

/// Most presses have frames of 64 slots, whose deadlines the library reads from a table.
fn random_frame(random: &mut Random) -> u32 {
    let longest = LONGEST_FRAME as usize;
    let frame = match random.below(16) {
        0..=3 => random.within(1, 12),
        4..=7 => random.within(13, 200),
        8..=10 => random.within(201, longest / 2),
        11 if random.flip() => longest,
        11 => random.within(longest / 2 + 1, longest - 1),
        12 => TABLE_FRAME as usize - 1,
        13 => TABLE_FRAME as usize + 1,
        _ => TABLE_FRAME as usize,
    };
    frame as u32
}

fn random_depth(random: &mut Random) -> usize {
    match random.below(4) {
        0 => random.within(1, 2),
        1 | 2 => random.within(3, 12),
        _ if random.flip() => 64,
        _ => random.within(13, 63),
    }
}

fn random_feeding(random: &mut Random, ports: usize) -> Feeding {
    match random.below(6) {
        0..=2 => Feeding::Backlog { leak: random.pick(&[20, 300, usize::MAX]) },
        3 => Feeding::Trickle { most: random.within(1, ports) },
        4 => Feeding::Bursts,
        _ => Feeding::Single { input: random.below(ports), output: random.below(ports) },
    }
}

/// Two frames at least; fewer slots where each costs more.
fn random_length(random: &mut Random, ports: usize, frame: u32) -> usize {
    let frames = 2 * frame as usize + random.below(2 * frame as usize);
    frames.max(40_000 / (ports * ports).max(4))
}
