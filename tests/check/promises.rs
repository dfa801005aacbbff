//! Demand 3, asserted of the subject's own answers in a run: occupancy, order, shares, and which plan runs.

use super::share::{Share, Shown};
use super::tally::{Branch, Tally};
use crate::model::plan::Plan;
use crate::model::Switch;
use crate::operations::{PortReply, SlotReply};
use std::collections::VecDeque;

const EMPTY: u32 = 1;
const MOVED: u32 = 2;

/// How often the contents of all flows, and not only those of the served ones, are looked at.
const FULL_LOOK: u64 = 128;

pub struct Promises {
    ports: usize,
    frame: u64,
    slots: u64,
    /// The rates of the plan that runs.
    running: Vec<u16>,
    waiting: Option<Waiting>,
    flows: Vec<Flow>,
}

/// The plan accepted last, and how many slots there had been.
struct Waiting {
    rates: Vec<u16>,
    since: u64,
}

/// What the answers so far say of a flow. Accepted = moved ++ queued, moved = left ++ crossing; of these
/// lists only what still has a claim on it is kept.
struct Flow {
    queued: VecDeque<u32>,
    crossing: VecDeque<u32>,
    share: Share,
}

impl Promises {
    pub fn new(plan: &Plan) -> Promises {
        let flow = |&rate: &u16| Flow {
            queued: VecDeque::new(),
            crossing: VecDeque::with_capacity(3),
            share: Share::new(plan.frame, rate),
        };
        Promises {
            ports: plan.ports,
            frame: u64::from(plan.frame),
            slots: 0,
            running: plan.used_rates().to_vec(),
            waiting: None,
            flows: plan.used_rates().iter().map(flow).collect(),
        }
    }

    pub fn arrival(&mut self, state: &Switch, store: &[u32], flow: usize, cell: u32) -> Result<(), String> {
        self.flows[flow].queued.push_back(cell);
        self.look_at(state, store, flow)
    }

    /// An accepted load.
    pub fn load(&mut self, rates: &[u16], tally: &mut Tally) {
        if let Some(Waiting { since, .. }) = self.waiting {
            let at_once = since == self.slots;
            tally.branch(if at_once { Branch::ReplacedAtOnce } else { Branch::ReplacedAfterSlots });
        }
        self.waiting = Some(Waiting { rates: rates.to_vec(), since: self.slots });
    }

    /// An accepted step; the state and the store are those after it.
    pub fn step(&mut self, reply: &SlotReply, store: &[u32], tally: &mut Tally) -> Result<(), String> {
        if self.slots % self.frame == 0 {
            self.begin_frame()?;
        }
        if reply.state.running.used_rates() != self.running {
            return Err("the plan that runs isn't the one accepted last before the frame began".to_string());
        }
        for input in 0..self.ports {
            self.board(input, &reply.moves[input], tally)?;
        }
        for output in 0..self.ports {
            self.head(output, &reply.sends[output])?;
        }
        self.shares(reply, tally)?;
        for port in self.ports..reply.moves.len() {
            if (reply.moves[port].kind, reply.sends[port].kind) != (0, 0) {
                return Err(format!("port {port} isn't idle, N = {}", self.ports));
            }
        }
        self.slots += 1;
        self.look_at_served(reply, store)?;
        if self.slots % FULL_LOOK == 0 {
            self.look_at_all(&reply.state, store)?;
        }
        Ok(())
    }

    fn begin_frame(&mut self) -> Result<(), String> {
        let Some(Waiting { rates, .. }) = self.waiting.take() else { return Ok(()) };
        for (flow, &rate) in self.flows.iter_mut().zip(&rates) {
            flow.share.set_rate(self.slots, rate)?;
        }
        self.running = rates;
        Ok(())
    }

    pub fn end(&self, state: &Switch, store: &[u32]) -> Result<(), String> {
        self.flows.iter().try_for_each(|flow| flow.share.end(self.slots))?;
        self.look_at_all(state, store)
    }

    /// Part 3 for one board. At its end no crossing may hold more than two cells.
    fn board(&mut self, input: usize, answer: &PortReply, tally: &mut Tally) -> Result<(), String> {
        if answer.kind != MOVED {
            return Ok(());
        }
        let number = input * self.ports + answer.other;
        let flow = &mut self.flows[number];
        if flow.queued.pop_front() != Some(answer.cell) {
            return Err(format!("flow {number}: the board moved {:#x}, not its oldest cell", answer.cell));
        }
        flow.crossing.push_back(answer.cell);
        match flow.crossing.len() {
            0 | 1 => {}
            2 => tally.branch(Branch::CrosspointFull),
            cells => return Err(format!("flow {number}: {cells} cells in the crossing")),
        }
        Ok(())
    }

    /// Part 4 for one head.
    fn head(&mut self, output: usize, answer: &PortReply) -> Result<(), String> {
        let number = answer.other * self.ports + output;
        if answer.kind == MOVED && self.flows[number].crossing.pop_front() != Some(answer.cell) {
            return Err(format!("flow {number}: the head sent {:#x}, not the crossing's oldest cell", answer.cell));
        }
        Ok(())
    }

    fn shares(&mut self, reply: &SlotReply, tally: &mut Tally) -> Result<(), String> {
        let ports = self.ports;
        for (output, head) in reply.sends[..ports].iter().enumerate() {
            if head.kind == MOVED {
                let board = &reply.moves[head.other];
                let board_empty = board.kind == EMPTY && board.other == output;
                self.share(head.other * ports + output, board_empty, true, tally)?;
            }
        }
        for (input, board) in reply.moves[..ports].iter().enumerate() {
            if board.kind == EMPTY {
                let head = &reply.sends[board.other];
                let counted = head.kind == MOVED && head.other == input;
                if !counted {
                    self.share(input * ports + board.other, true, false, tally)?;
                }
            }
        }
        Ok(())
    }

    fn share(&mut self, flow: usize, board_empty: bool, head_sent: bool, tally: &mut Tally) -> Result<(), String> {
        let Shown { fed_since_start, lower_reached, upper_reached } = self.flows[flow]
            .share
            .slot(self.slots, board_empty, head_sent)
            .map_err(|broken| format!("flow {flow}: {broken}"))?;
        tally.branch(if fed_since_start { Branch::FedSinceStart } else { Branch::FedStretch });
        if lower_reached {
            tally.branch(if fed_since_start { Branch::LowerShareReached } else { Branch::LowerShareReachedLater });
        }
        if upper_reached {
            tally.branch(Branch::UpperShareReached);
        }
        Ok(())
    }

    fn look_at_served(&self, reply: &SlotReply, store: &[u32]) -> Result<(), String> {
        for port in 0..self.ports {
            if reply.moves[port].kind != 0 {
                self.look_at(&reply.state, store, port * self.ports + reply.moves[port].other)?;
            }
            if reply.sends[port].kind != 0 {
                self.look_at(&reply.state, store, reply.sends[port].other * self.ports + port)?;
            }
        }
        Ok(())
    }

    fn look_at_all(&self, state: &Switch, store: &[u32]) -> Result<(), String> {
        (0..self.flows.len()).try_for_each(|flow| self.look_at(state, store, flow))
    }

    /// The queue and the crosspoint hold the very cells that the answers leave there.
    fn look_at(&self, state: &Switch, store: &[u32], number: usize) -> Result<(), String> {
        let flow = &self.flows[number];
        if !state.queued_cells(store, number).eq(flow.queued.iter().copied()) {
            return Err(format!("flow {number}: the queue isn't accepted less moved"));
        }
        if !state.crossing_cells(number).iter().eq(&flow.crossing) {
            return Err(format!("flow {number}: the crosspoint isn't moved less left"));
        }
        Ok(())
    }
}
