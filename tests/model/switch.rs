//! The crossbar: start, arrival, load and step, each in place. A refused call changes nothing.

use super::multiplexer::Multiplexer;
use super::plan::{self, Plan, MOST_FLOWS, MOST_PORTS};
use super::refusal::{refuse_if, Refusal};

pub const DEEPEST_QUEUE: usize = 64;
pub const CROSSPOINT_CELLS: u8 = 2;

/// A ring in the lent store: the oldest cell's place within the flow's places, and how many cells follow.
#[derive(Clone, Copy, Debug, PartialEq, Eq)]
#[repr(C)]
pub struct Queue {
    pub place: u8,
    pub count: u8,
}

#[derive(Clone, Copy, Debug, PartialEq, Eq)]
#[repr(C)]
pub struct Crosspoint {
    pub cells: [u32; CROSSPOINT_CELLS as usize],
    pub count: u8,
}

/// Flow (i, j) has number i × N + j in queues and crosspoints. `waits` is 0 where no plan waits; every other byte, which a
/// hand-made state may hold, says that one does.
#[derive(Clone, Copy, Debug, PartialEq, Eq)]
#[repr(C)]
pub struct Switch {
    pub running: Plan,
    pub waiting: Plan,
    pub waits: u8,
    pub depth: usize,
    pub slot: u32,
    pub queues: [Queue; MOST_FLOWS],
    pub crosspoints: [Crosspoint; MOST_FLOWS],
    pub boards: [Multiplexer; MOST_PORTS],
    pub heads: [Multiplexer; MOST_PORTS],
}

/// What one port did in a slot.
#[derive(Clone, Copy, Debug, PartialEq, Eq)]
pub enum Port {
    Idle,
    Empty { other: usize },
    Moved { other: usize, cell: u32 },
}

#[derive(Clone, Copy, Debug, PartialEq, Eq)]
pub struct SlotAnswer {
    pub moves: [Port; MOST_PORTS],
    pub sends: [Port; MOST_PORTS],
}

impl SlotAnswer {
    pub const IDLE: SlotAnswer = SlotAnswer { moves: [Port::Idle; MOST_PORTS], sends: [Port::Idle; MOST_PORTS] };
}

/// The flow that each port serves, by the number of the other port.
struct Choices {
    boards: [Option<usize>; MOST_PORTS],
    heads: [Option<usize>; MOST_PORTS],
}

impl Queue {
    /// The place that the next cell goes to.
    fn free_place(&self, depth: usize) -> usize {
        (usize::from(self.place) + usize::from(self.count)) % depth
    }

    fn drop_oldest(&mut self, depth: usize) {
        self.place = ((usize::from(self.place) + 1) % depth) as u8;
        self.count -= 1;
    }
}

impl Crosspoint {
    fn put(&mut self, cell: u32) {
        self.cells[usize::from(self.count)] = cell;
        self.count += 1;
    }

    /// The oldest cell goes, a second one moves up; the place that falls empty is set to 0.
    fn take(&mut self) -> Option<u32> {
        if self.count == 0 {
            return None;
        }
        let oldest = self.cells[0];
        if self.count == 2 {
            self.cells = [self.cells[1], 0];
        } else {
            self.cells[0] = 0;
        }
        self.count -= 1;
        Some(oldest)
    }
}

impl Switch {
    pub const ZERO: Switch = Switch {
        running: Plan::ZERO,
        waiting: Plan::ZERO,
        waits: 0,
        depth: 0,
        slot: 0,
        queues: [Queue { place: 0, count: 0 }; MOST_FLOWS],
        crosspoints: [Crosspoint { cells: [0; 2], count: 0 }; MOST_FLOWS],
        boards: [Multiplexer::ZERO; MOST_PORTS],
        heads: [Multiplexer::ZERO; MOST_PORTS],
    };

    pub fn start(ports: usize, frame: u32, rates: &[u16], depth: usize, store: &[u32]) -> Result<Switch, Refusal> {
        plan::accept(ports, frame, rates)?;
        refuse_if(!depth_in_range(depth), Refusal::DepthOutOfRange)?;
        refuse_if(store.len() != ports * ports * depth, Refusal::StoreLength)?;
        let mut state = Switch { depth, ..Switch::ZERO };
        state.running.set(ports, frame, rates);
        Ok(state)
    }

    pub fn arrive(&mut self, store: &mut [u32], input: usize, output: usize, cell: u32) -> Result<(), Refusal> {
        self.check()?;
        self.check_store(store)?;
        refuse_if(input >= self.ports() || output >= self.ports(), Refusal::NoSuchPort)?;
        let flow = self.flow(input, output);
        let queue = &mut self.queues[flow];
        refuse_if(usize::from(queue.count) == self.depth, Refusal::QueueFull)?;
        store[flow * self.depth + queue.free_place(self.depth)] = cell;
        queue.count += 1;
        Ok(())
    }

    pub fn load(&mut self, ports: usize, frame: u32, rates: &[u16]) -> Result<(), Refusal> {
        self.check()?;
        plan::accept(ports, frame, rates)?;
        refuse_if((ports, frame) != (self.running.ports, self.running.frame), Refusal::OtherPortsOrFrame)?;
        self.waiting.set(ports, frame, rates);
        self.waits = 1;
        Ok(())
    }

    pub fn step(&mut self, store: &[u32]) -> Result<SlotAnswer, Refusal> {
        self.check()?;
        self.check_store(store)?;
        let choices = self.choices(self.ruling_plan());
        refuse_if(self.third_cell(&choices), Refusal::ThirdCell)?;
        if self.takes_over() {
            self.take_over();
        }
        let mut answer = SlotAnswer::IDLE;
        self.move_cells(&choices, store, &mut answer);
        self.send_cells(&choices, &mut answer);
        self.end_slot(&choices);
        Ok(answer)
    }

    pub fn ports(&self) -> usize {
        self.running.ports
    }

    pub fn flow(&self, input: usize, output: usize) -> usize {
        input * self.ports() + output
    }

    /// The cells of a flow's queue, oldest first.
    pub fn queued_cells<'a>(&'a self, store: &'a [u32], flow: usize) -> impl Iterator<Item = u32> + 'a {
        let queue = self.queues[flow];
        let places = &store[flow * self.depth..][..self.depth];
        (0..usize::from(queue.count)).map(move |k| places[(usize::from(queue.place) + k) % places.len()])
    }

    /// The cells of a flow's crosspoint, oldest first.
    pub fn crossing_cells(&self, flow: usize) -> &[u32] {
        let crosspoint = &self.crosspoints[flow];
        &crosspoint.cells[..usize::from(crosspoint.count)]
    }

    pub fn plan_waits(&self) -> bool {
        self.waits != 0
    }

    /// Whether the next step begins with a takeover.
    pub fn takes_over(&self) -> bool {
        self.plan_waits() && self.slot == 0
    }

    /// The plan that the next step chooses by.
    pub fn ruling_plan(&self) -> &Plan {
        if self.takes_over() {
            &self.waiting
        } else {
            &self.running
        }
    }

    /// Number 12. What stands in the places for ports from N up is not looked at.
    pub fn check(&self) -> Result<(), Refusal> {
        let plans_hold = self.running.is_accepted()
            && (!self.plan_waits()
                || (self.waiting.ports, self.waiting.frame) == (self.running.ports, self.running.frame)
                    && self.waiting.is_accepted());
        let holds = plans_hold
            && depth_in_range(self.depth)
            && self.slot < self.running.frame
            && self.cells_are_within_bounds()
            && self.services_are_within_rates();
        refuse_if(!holds, Refusal::BrokenState)
    }

    fn cells_are_within_bounds(&self) -> bool {
        let flows = self.ports() * self.ports();
        let within = |queue: &Queue| usize::from(queue.place) < self.depth && usize::from(queue.count) <= self.depth;
        self.queues[..flows].iter().all(within)
            && self.crosspoints[..flows].iter().all(|crosspoint| crosspoint.count <= CROSSPOINT_CELLS)
    }

    fn services_are_within_rates(&self) -> bool {
        (0..self.ports()).all(|input| {
            (0..self.ports()).all(|output| {
                let most = if self.slot == 0 { 0 } else { self.running.rate(input, output) };
                self.boards[input].served[output] <= most && self.heads[output].served[input] <= most
            })
        })
    }

    /// Number 7.
    fn check_store(&self, store: &[u32]) -> Result<(), Refusal> {
        refuse_if(store.len() != self.ports() * self.ports() * self.depth, Refusal::StoreLength)
    }

    fn choices(&self, plan: &Plan) -> Choices {
        let mut choices = Choices { boards: [None; MOST_PORTS], heads: [None; MOST_PORTS] };
        for port in 0..plan.ports {
            choices.boards[port] = self.boards[port].choose(plan.row(port), plan.frame, self.slot);
            choices.heads[port] = self.heads[port].choose(&plan.column(port)[..plan.ports], plan.frame, self.slot);
        }
        choices
    }

    /// Number 13.
    fn third_cell(&self, choices: &Choices) -> bool {
        (0..self.ports()).any(|input| {
            choices.boards[input].is_some_and(|output| {
                let flow = self.flow(input, output);
                self.queues[flow].count > 0 && self.crosspoints[flow].count == CROSSPOINT_CELLS
            })
        })
    }

    fn take_over(&mut self) {
        self.running.set(self.waiting.ports, self.waiting.frame, self.waiting.used_rates());
        self.waiting.clear();
        self.waits = 0;
    }

    fn move_cells(&mut self, choices: &Choices, store: &[u32], answer: &mut SlotAnswer) {
        for input in 0..self.ports() {
            let Some(output) = choices.boards[input] else { continue };
            let flow = self.flow(input, output);
            let queue = &mut self.queues[flow];
            answer.moves[input] = if queue.count == 0 {
                Port::Empty { other: output }
            } else {
                let cell = store[flow * self.depth + usize::from(queue.place)];
                queue.drop_oldest(self.depth);
                self.crosspoints[flow].put(cell);
                Port::Moved { other: output, cell }
            };
        }
    }

    fn send_cells(&mut self, choices: &Choices, answer: &mut SlotAnswer) {
        for output in 0..self.ports() {
            let Some(input) = choices.heads[output] else { continue };
            let flow = self.flow(input, output);
            answer.sends[output] = match self.crosspoints[flow].take() {
                None => Port::Empty { other: input },
                Some(cell) => Port::Moved { other: input, cell },
            };
        }
    }

    fn end_slot(&mut self, choices: &Choices) {
        let ports = self.ports();
        for port in 0..ports {
            self.boards[port].count(choices.boards[port]);
            self.heads[port].count(choices.heads[port]);
        }
        self.slot += 1;
        if self.slot == self.running.frame {
            self.slot = 0;
            for port in 0..ports {
                self.boards[port].end_frame(ports);
                self.heads[port].end_frame(ports);
            }
        }
    }
}

fn depth_in_range(depth: usize) -> bool {
    (1..=DEEPEST_QUEUE).contains(&depth)
}
