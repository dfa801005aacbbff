//! What is measured: a switch with every line full and cells in all queues, and the calls on it.

use crate::model::plan::{LONGEST_FRAME, MOST_PORTS};
use crate::model::{regulator, Switch};

pub const SIZES: [(usize, u32); 2] = [(MOST_PORTS, LONGEST_FRAME), (4, 64)];
/// Cells that a queue has room for.
pub const DEPTH: usize = 64;

pub struct Workload {
    pub ports: usize,
    pub frame: u32,
    pub rates: Vec<u16>,
    /// Every place holds a cell, so a queue is filled by its count.
    pub store: Vec<u32>,
    /// The state right after the start.
    pub fresh: Switch,
}

/// A cell on its way into a queue.
pub struct Arrival {
    pub input: usize,
    pub output: usize,
    pub cell: u32,
}

impl Workload {
    pub fn new(ports: usize, frame: u32) -> Workload {
        let rates = full_plan(ports, frame);
        let store: Vec<u32> = (0..(ports * ports * DEPTH) as u32).collect();
        let fresh = Switch::start(ports, frame, &rates, DEPTH, &store).expect("the plan is accepted");
        Workload { ports, frame, rates, store, fresh }
    }

    pub fn flows(&self) -> usize {
        self.ports * self.ports
    }

    /// The state in the middle of the first frame, its queues half full: arrivals find room.
    pub fn mid_frame(&self) -> Switch {
        let mut state = self.fresh;
        for _ in 0..self.frame / 2 {
            fill_queues(&mut state, DEPTH);
            state.step(&self.store).expect("a slot is never refused");
        }
        fill_queues(&mut state, DEPTH / 2);
        state
    }

    /// The arrivals go through the flows in turn.
    pub fn arrival(&self, number: usize) -> Arrival {
        let flow = number % self.flows();
        Arrival { input: flow / self.ports, output: flow % self.ports, cell: number as u32 }
    }

    /// The plan that is loaded: the running one turned round, so that its lines are full too.
    pub fn next_rates(&self) -> Vec<u16> {
        self.rates.iter().rev().copied().collect()
    }
}

/// Puts so many cells into each queue.
pub fn fill_queues(state: &mut Switch, cells: usize) {
    let flows = state.ports() * state.ports();
    for queue in &mut state.queues[..flows] {
        queue.count = cells as u8;
    }
}

/// Uneven demands, scaled.
pub fn scaled_plan(ports: usize, frame: u32) -> Vec<u16> {
    let demands: Vec<u16> = (0..ports * ports).map(|flow| 1 + (flow * 37 % 23) as u16).collect();
    let mut scaled = vec![0; ports * ports];
    regulator::scale(ports, frame, &demands, &mut scaled).expect("the demands have the right shape");
    scaled
}

/// And boosted.
fn full_plan(ports: usize, frame: u32) -> Vec<u16> {
    let mut boosted = vec![0; ports * ports];
    regulator::boost(ports, frame, 0, &scaled_plan(ports, frame), &mut boosted).expect("a scaled plan is accepted");
    boosted
}
