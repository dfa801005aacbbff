//! A switch that does LESS than the scope asks, to show how far the limit is.
//!
//! It runs the same slot in place, with the model's answers and state after each, but
//! - it checks nothing: it never gives number 12, 7 or 13, and is right only after an accepted start;
//! - it has no waiting plan, so no takeover;
//! - it keeps each flow's next deadline beside its count, and divides only for a flow that was served;
//! - it sorts each port's flows by rate once, so that a tie goes to the first of them;
//! - it copies no record, and writes its answers where the caller wants them.

use crate::model::plan::{LONGEST_FRAME, MOST_FLOWS, MOST_PORTS};
use crate::model::{Crosspoint, Multiplexer, Port, Queue, SlotAnswer, Switch};
use std::cmp::Reverse;

pub struct UncheckedSwitch {
    ports: usize,
    frame: u32,
    depth: usize,
    slot: u32,
    queues: [Queue; MOST_FLOWS],
    crosspoints: [Crosspoint; MOST_FLOWS],
    boards: [Deadlines; MOST_PORTS],
    heads: [Deadlines; MOST_PORTS],
}

/// One port's multiplexer. Each place is a flow's, the larger rate before the smaller, the lower number before the higher.
/// All 16 places are looked at, whatever N is: the compiler makes vector code of that.
#[derive(Clone, Copy)]
struct Deadlines {
    flows: [u8; MOST_PORTS],
    rates: [u16; MOST_PORTS],
    served: [u16; MOST_PORTS],
    /// The first slot in which the flow is eligible again.
    eligible_from: [i16; MOST_PORTS],
    /// The order of the eligible flows, see `rank`.
    ranks: [i16; MOST_PORTS],
    first_ranks: [i16; MOST_PORTS],
}

/// Later than any slot, and behind the rank of any eligible flow.
const NEVER: i16 = i16::MAX;

const _: () = assert!(LONGEST_FRAME <= 1024, "a rank has 10 bits for a deadline");

/// The smaller deadline has the lower rank, and of equal ones the lower place. An eligible flow's deadline is 1 to
/// 1,024, so that both fit 14 bits; they are signed, since plain x86-64 has a vector minimum for these only.
fn rank(deadline: u32, place: usize) -> i16 {
    ((deadline - 1) << 4 | place as u32) as i16
}

fn deadline_of(rank: i16) -> i16 {
    (rank >> 4) + 1
}

fn place_of(rank: i16) -> usize {
    (rank & 15) as usize
}

/// By halves, which the compiler turns into vector code; as a call it would pass the ranks through memory.
#[inline(always)]
fn lowest(mut ranks: [i16; MOST_PORTS]) -> i16 {
    for half in [8, 4, 2, 1] {
        for place in 0..half {
            ranks[place] = ranks[place].min(ranks[place + half]);
        }
    }
    ranks[0]
}

impl Deadlines {
    /// At the frame's begin, from the rates by flow.
    fn new(rates: [u16; MOST_PORTS], frame: u32) -> Deadlines {
        let mut flows: [u8; MOST_PORTS] = std::array::from_fn(|flow| flow as u8);
        flows.sort_by_key(|flow| Reverse(rates[usize::from(*flow)]));
        let rates = flows.map(|flow| rates[usize::from(flow)]);
        let first_ranks = std::array::from_fn(|place| match rates[place] {
            0 => NEVER,
            rate => rank(frame.div_ceil(u32::from(rate)), place),
        });
        let mut port = Deadlines {
            flows,
            rates,
            served: [0; MOST_PORTS],
            eligible_from: [NEVER; MOST_PORTS],
            ranks: first_ranks,
            first_ranks,
        };
        port.begin_frame();
        port
    }

    fn begin_frame(&mut self) {
        self.served = [0; MOST_PORTS];
        self.eligible_from = self.rates.map(|rate| if rate == 0 { NEVER } else { 0 });
        self.ranks = self.first_ranks;
    }

    /// The flow that the slot goes to, counted.
    #[inline(always)]
    fn serve(&mut self, slot: u32, frame: u32) -> Option<usize> {
        let place = self.choose(slot)?;
        self.count(place, frame);
        Some(usize::from(self.flows[place]))
    }

    #[inline(always)]
    fn choose(&self, slot: u32) -> Option<usize> {
        let slot = slot as i16;
        let eligible_rank = |place| if self.eligible_from[place] <= slot { self.ranks[place] } else { NEVER };
        let first = lowest(std::array::from_fn(eligible_rank));
        (first != NEVER).then_some(place_of(first))
    }

    /// A flow is eligible again from the deadline that it just met.
    #[inline(always)]
    fn count(&mut self, place: usize, frame: u32) {
        self.served[place] += 1;
        let next = (u32::from(self.served[place]) + 1) * frame;
        self.eligible_from[place] = deadline_of(self.ranks[place]);
        self.ranks[place] = rank(next.div_ceil(u32::from(self.rates[place])), place);
    }

    /// Whether each flow was served as often as in the model.
    fn equals(&self, multiplexer: &Multiplexer) -> bool {
        self.flows.iter().zip(&self.served).all(|(flow, served)| multiplexer.served[usize::from(*flow)] == *served)
    }
}

impl UncheckedSwitch {
    /// The state of an accepted start.
    pub fn new(fresh: &Switch) -> UncheckedSwitch {
        let plan = &fresh.running;
        let row = |input| std::array::from_fn(|output| if output < plan.ports { plan.rate(input, output) } else { 0 });
        let port = |rates| Deadlines::new(rates, plan.frame);
        let mut state = UncheckedSwitch {
            ports: plan.ports,
            frame: plan.frame,
            depth: fresh.depth,
            slot: fresh.slot,
            queues: fresh.queues,
            crosspoints: fresh.crosspoints,
            boards: [port([0; MOST_PORTS]); MOST_PORTS],
            heads: [port([0; MOST_PORTS]); MOST_PORTS],
        };
        for number in 0..plan.ports {
            state.boards[number] = port(row(number));
            state.heads[number] = port(plan.column(number));
        }
        state
    }

    /// Writes the answers of the ports below N.
    #[inline(never)]
    pub fn step(&mut self, store: &[u32], answer: &mut SlotAnswer) {
        for input in 0..self.ports {
            answer.moves[input] = self.serve_board(input, store);
        }
        for output in 0..self.ports {
            answer.sends[output] = self.serve_head(output);
        }
        self.end_slot();
    }

    fn serve_board(&mut self, input: usize, store: &[u32]) -> Port {
        let Some(output) = self.boards[input].serve(self.slot, self.frame) else { return Port::Idle };
        let flow = input * self.ports + output;
        let queue = &mut self.queues[flow];
        if queue.count == 0 {
            return Port::Empty { other: output };
        }
        let cell = store[flow * self.depth + usize::from(queue.place)];
        queue.count -= 1;
        queue.place = if usize::from(queue.place) + 1 == self.depth { 0 } else { queue.place + 1 };
        let crosspoint = &mut self.crosspoints[flow];
        crosspoint.cells[usize::from(crosspoint.count & 1)] = cell;
        crosspoint.count += 1;
        Port::Moved { other: output, cell }
    }

    fn serve_head(&mut self, output: usize) -> Port {
        let Some(input) = self.heads[output].serve(self.slot, self.frame) else { return Port::Idle };
        let crosspoint = &mut self.crosspoints[input * self.ports + output];
        if crosspoint.count == 0 {
            return Port::Empty { other: input };
        }
        // An empty place is 0, so it can move up like a cell.
        let cell = crosspoint.cells[0];
        crosspoint.cells = [crosspoint.cells[1], 0];
        crosspoint.count -= 1;
        Port::Moved { other: input, cell }
    }

    fn end_slot(&mut self) {
        self.slot += 1;
        if self.slot == self.frame {
            self.slot = 0;
            self.boards[..self.ports].iter_mut().for_each(Deadlines::begin_frame);
            self.heads[..self.ports].iter_mut().for_each(Deadlines::begin_frame);
        }
    }

    /// Puts so many cells into each queue.
    pub fn fill_queues(&mut self, cells: usize) {
        for queue in &mut self.queues[..self.ports * self.ports] {
            queue.count = cells as u8;
        }
    }

    /// Whether a state of the model has the same slot, queues, crosspoints and service counts.
    pub fn equals(&self, state: &Switch) -> bool {
        let same = |ports: &[Deadlines; MOST_PORTS], multiplexers: &[Multiplexer; MOST_PORTS]| {
            ports.iter().zip(multiplexers).all(|(port, multiplexer)| port.equals(multiplexer))
        };
        self.slot == state.slot
            && self.queues == state.queues
            && self.crosspoints == state.crosspoints
            && same(&self.boards, &state.boards)
            && same(&self.heads, &state.heads)
    }
}
