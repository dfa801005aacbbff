//! States made by hand for each clause of number 12 and for number 13.

use super::plans;
use super::random::Random;
use super::tally::TABLE_FRAME;
use crate::model::plan::{LONGEST_FRAME, MOST_FLOWS, MOST_PORTS};
use crate::model::{Crosspoint, Multiplexer, Plan, Queue, Switch};

/// Makes a state that is valid, or broken by this clause alone as far as the clause allows.
pub type Make = fn(&mut Random, past: bool) -> Switch;

pub const CLAUSES: [(&str, Make); 19] = [
    ("running plan's N", running_ports),
    ("running plan's T", running_frame),
    ("running plan's row sum", |random, past| running_line(random, past, Line::Row)),
    ("running plan's column sum", |random, past| running_line(random, past, Line::Column)),
    ("waiting plan's N", waiting_ports),
    ("waiting plan's T", waiting_frame),
    ("waiting plan's row sum", |random, past| waiting_line(random, past, Line::Row)),
    ("waiting plan's column sum", |random, past| waiting_line(random, past, Line::Column)),
    ("waiting plan out of bounds: none waits, one waits", unused_waiting_plan),
    ("Q", depth),
    ("slot", slot),
    ("queue's place", queue_place),
    ("queue's count", queue_count),
    ("crosspoint's count", crosspoint_count),
    ("board's service count", |random, past| service_count(random, past, Side::Board)),
    ("head's service count", |random, past| service_count(random, past, Side::Head)),
    ("board's service count in slot 0", |random, past| count_in_slot_0(random, past, Side::Board)),
    ("head's service count in slot 0", |random, past| count_in_slot_0(random, past, Side::Head)),
    ("numbers out of bounds from N up, below N", from_ports_up),
];

pub const THIRD_CELLS: [(&str, Make); 2] =
    [("third cell", third_cell), ("third cell after a takeover", third_cell_after_takeover)];

#[derive(Clone, Copy)]
enum Line {
    Row,
    Column,
}

#[derive(Clone, Copy)]
enum Side {
    Board,
    Head,
}

struct Shape {
    ports: usize,
    frame: u32,
    depth: usize,
}

fn shape(random: &mut Random) -> Shape {
    let ports = random.pick(&[1, 2, 3, 4, 5, 7, 11, 15, 16]);
    let longest = random.pick(&[2, 10, 100, LONGEST_FRAME]);
    let any = random.within(2, longest as usize) as u32;
    let frame = if random.one_in(4) { TABLE_FRAME } else { any };
    let depth = random.pick(&[1, 2, 3, 7, 63, 64]);
    Shape { ports, frame, depth }
}

pub fn any_state(random: &mut Random) -> Switch {
    let shape = shape(random);
    state_of(random, shape)
}

/// A valid state of the shape. All that number 12 doesn't look at holds anything.
fn state_of(random: &mut Random, shape: Shape) -> Switch {
    let Shape { ports, frame, depth } = shape;
    let mut state = garbage(random);
    let rates = plans::accepted(random, ports, frame);
    state.running.set(ports, frame, &rates);
    if random.flip() {
        wait(random, &mut state, ports, frame);
    }
    state.depth = depth;
    let any_slot = random.below(frame as usize) as u32;
    state.slot = random.pick(&[0, frame - 1, any_slot]);
    let most_cells = random.pick(&[0, 1, depth]);
    let fullest = random.pick(&[1, 2]);
    for flow in 0..ports * ports {
        state.queues[flow].place = random.below(depth) as u8;
        state.queues[flow].count = random.below(most_cells + 1) as u8;
        state.crosspoints[flow].count = random.below(fullest + 1) as u8;
    }
    set_services(random, &mut state);
    state
}

fn garbage(random: &mut Random) -> Switch {
    fn plan(random: &mut Random) -> Plan {
        Plan {
            ports: random.pick(&[0, 1, 2, 16, 17, 3000, usize::MAX]),
            frame: random.next() as u32,
            rates: std::array::from_fn(|_| random.next() as u16),
        }
    }
    fn multiplexers(random: &mut Random) -> [Multiplexer; MOST_PORTS] {
        std::array::from_fn(|_| Multiplexer { served: std::array::from_fn(|_| random.next() as u16) })
    }
    Switch {
        running: plan(random),
        waiting: plan(random),
        waits: 0,
        depth: 0,
        slot: 0,
        queues: std::array::from_fn(|_| Queue { place: random.next() as u8, count: random.next() as u8 }),
        crosspoints: std::array::from_fn(|_| Crosspoint {
            cells: [random.cell(), random.cell()],
            count: random.next() as u8,
        }),
        boards: multiplexers(random),
        heads: multiplexers(random),
    }
}

/// Service counts that the running plan and the slot allow: none, all, any, or those of a true frame.
fn set_services(random: &mut Random, state: &mut Switch) {
    let ports = state.ports();
    let kind = random.below(4);
    for input in 0..ports {
        for output in 0..ports {
            let rate = usize::from(state.running.rate(input, output));
            let mut services = || -> u16 {
                let count = match kind {
                    _ if state.slot == 0 => 0,
                    0 => 0,
                    1 => rate,
                    2 => random.below(rate + 1),
                    _ => state.slot as usize * rate / state.running.frame as usize,
                };
                count as u16
            };
            let (board, head) = (services(), services());
            state.boards[input].served[output] = board;
            state.heads[output].served[input] = head;
        }
    }
}

fn running_ports(random: &mut Random, past: bool) -> Switch {
    let few = random.flip();
    let shape = Shape { ports: if few { 1 } else { 16 }, ..shape(random) };
    let mut state = state_of(random, shape);
    if past {
        state.waits = 0;
        state.running.ports = if few { 0 } else { random.pick(&[17, 255, 1 << 32, usize::MAX]) };
    }
    state
}

fn running_frame(random: &mut Random, past: bool) -> Switch {
    let short = random.flip();
    let shape = Shape { frame: if short { 1 } else { LONGEST_FRAME }, ..shape(random) };
    let mut state = state_of(random, shape);
    if past {
        state.waits = 0;
        if short {
            state.running.rates.fill(0);
            state.running.frame = 0;
        } else {
            state.running.frame = random.pick(&[LONGEST_FRAME + 1, 65_536, u32::MAX]);
        }
    }
    state
}

/// Rates whose sum is T in one line, or T + 1 there and, with two ports or more, nowhere else.
fn line_at_limit(random: &mut Random, ports: usize, frame: u32, past: bool, line: Line) -> Vec<u16> {
    let (at, along) = (random.below(ports), random.below(ports));
    let flow = |across: usize, along: usize| match line {
        Line::Row => across * ports + along,
        Line::Column => along * ports + across,
    };
    let mut rates = plans::sparse_with_room(random, ports, frame, flow(at, along));
    rates[flow(at, along)] = frame as u16;
    if past {
        let next = (along + 1) % ports;
        if next != along {
            (0..ports).for_each(|across| rates[flow(across, next)] = 0);
        }
        rates[flow(at, next)] += 1;
    }
    rates
}

fn running_line(random: &mut Random, past: bool, line: Line) -> Switch {
    let mut state = any_state(random);
    let (ports, frame) = (state.running.ports, state.running.frame);
    let rates = line_at_limit(random, ports, frame, past, line);
    state.running.set(ports, frame, &rates);
    set_services(random, &mut state);
    state
}

fn waiting_line(random: &mut Random, past: bool, line: Line) -> Switch {
    let mut state = any_state(random);
    let (ports, frame) = (state.running.ports, state.running.frame);
    let rates = line_at_limit(random, ports, frame, past, line);
    state.waiting.set(ports, frame, &rates);
    state.waits = any_waits(random);
    state
}

/// The same N, or an accepted plan of the next one.
fn waiting_ports(random: &mut Random, past: bool) -> Switch {
    let mut state = any_state(random);
    let (ports, frame) = (state.running.ports, state.running.frame);
    let next = if ports == 16 || (ports > 1 && random.flip()) { ports - 1 } else { ports + 1 };
    wait(random, &mut state, if past { next } else { ports }, frame);
    state
}

fn waiting_frame(random: &mut Random, past: bool) -> Switch {
    let mut state = any_state(random);
    let (ports, frame) = (state.running.ports, state.running.frame);
    let next = if frame == LONGEST_FRAME || random.flip() { frame - 1 } else { frame + 1 };
    wait(random, &mut state, ports, if past { next } else { frame });
    state
}

fn wait(random: &mut Random, state: &mut Switch, ports: usize, frame: u32) {
    let rates = plans::accepted(random, ports, frame);
    state.waiting.set(ports, frame, &rates);
    state.waits = any_waits(random);
}

/// A byte that says that a plan waits.
fn any_waits(random: &mut Random) -> u8 {
    let any = random.within(1, 255) as u8;
    random.pick(&[1, 2, 3, 254, 255, any])
}

/// A waiting plan that can't be accepted is judged only while it waits.
fn unused_waiting_plan(random: &mut Random, past: bool) -> Switch {
    let mut state = any_state(random);
    state.waiting = garbage(random).waiting;
    if random.flip() {
        state.waiting.frame = random.pick(&[0, LONGEST_FRAME + 1, u32::MAX]);
    } else {
        state.waiting.frame = random.pick(&[state.running.frame, 9]);
        state.waiting.ports = random.pick(&[0, 17, 3000, usize::MAX]);
    }
    state.waits = if past { any_waits(random) } else { 0 };
    state
}

fn depth(random: &mut Random, past: bool) -> Switch {
    let shallow = random.flip();
    let shape = Shape { depth: if shallow { 1 } else { 64 }, ..shape(random) };
    let mut state = state_of(random, shape);
    if past {
        state.depth = if shallow { 0 } else { random.pick(&[65, 256, usize::MAX]) };
    }
    state
}

fn slot(random: &mut Random, past: bool) -> Switch {
    let mut state = any_state(random);
    let frame = state.running.frame;
    state.slot = if past { random.pick(&[frame, frame, frame + 1, u32::MAX]) } else { frame - 1 };
    set_services(random, &mut state);
    state
}

fn some_flow(random: &mut Random, state: &Switch) -> usize {
    random.below(state.ports() * state.ports())
}

fn queue_place(random: &mut Random, past: bool) -> Switch {
    let mut state = any_state(random);
    let flow = some_flow(random, &state);
    let limit = state.depth as u8 - 1;
    state.queues[flow].place = if past { random.pick(&[limit + 1, 255]) } else { limit };
    state
}

fn queue_count(random: &mut Random, past: bool) -> Switch {
    let mut state = any_state(random);
    let flow = some_flow(random, &state);
    let limit = state.depth as u8;
    state.queues[flow].count = if past { random.pick(&[limit + 1, 255]) } else { limit };
    state
}

fn crosspoint_count(random: &mut Random, past: bool) -> Switch {
    let mut state = any_state(random);
    let flow = some_flow(random, &state);
    state.crosspoints[flow].count = if past { random.pick(&[3, 255]) } else { 2 };
    state
}

fn service_count(random: &mut Random, past: bool, side: Side) -> Switch {
    let mut state = any_state(random);
    state.slot = random.within(1, state.running.frame as usize - 1) as u32;
    set_services(random, &mut state);
    let (input, output) = (random.below(state.ports()), random.below(state.ports()));
    let rate = state.running.rate(input, output);
    let count = if past { random.pick(&[rate + 1, u16::MAX]) } else { rate };
    set_service(&mut state, side, input, output, count);
    state
}

/// In slot 0 a count has to be 0 even where its rate is not.
fn count_in_slot_0(random: &mut Random, past: bool, side: Side) -> Switch {
    let mut state = any_state(random);
    let (input, output) = (random.below(state.ports()), random.below(state.ports()));
    let (ports, frame) = (state.running.ports, state.running.frame);
    let mut rates = plans::sparse_with_room(random, ports, frame, input * ports + output);
    rates[input * ports + output] = frame as u16;
    state.running.set(ports, frame, &rates);
    state.slot = 0;
    set_services(random, &mut state);
    set_service(&mut state, side, input, output, u16::from(past));
    state
}

fn set_service(state: &mut Switch, side: Side, input: usize, output: usize, count: u16) {
    match side {
        Side::Board => state.boards[input].served[output] = count,
        Side::Head => state.heads[output].served[input] = count,
    }
}

/// Everything out of bounds in the places from N up, or one of them moved below N.
fn from_ports_up(random: &mut Random, past: bool) -> Switch {
    let shape = Shape { ports: random.within(1, 15), ..shape(random) };
    let mut state = state_of(random, shape);
    let (ports, flows) = (state.ports(), state.ports() * state.ports());
    let first = if past { flows - 1 } else { flows };
    let flow = random.within(first, MOST_FLOWS - 1);
    state.running.rates[flows..].fill(u16::MAX);
    for flow in [flow, first] {
        state.queues[flow] = Queue { place: 255, count: 255 };
        state.crosspoints[flow].count = 255;
    }
    for port in 0..MOST_PORTS {
        state.boards[port].served[ports..].fill(u16::MAX);
        state.heads[port].served[ports..].fill(u16::MAX);
    }
    for port in ports..MOST_PORTS {
        state.boards[port].served.fill(u16::MAX);
        state.heads[port].served.fill(u16::MAX);
    }
    state
}

/// A board serves a flow whose queue holds a cell and whose crosspoint holds two. At the limit the queue
/// holds none or the crosspoint one, and all flows that no board serves have a full crosspoint.
fn third_cell(random: &mut Random, past: bool) -> Switch {
    loop {
        let mut state = any_state(random);
        if state.slot == 0 {
            state.waits = 0;
        }
        if set_crossings(random, &mut state, past) {
            return state;
        }
    }
}

/// The same by the choices of the plan that takes over, where the running plan would choose otherwise.
fn third_cell_after_takeover(random: &mut Random, past: bool) -> Switch {
    loop {
        let mut state = any_state(random);
        let (ports, frame) = (state.running.ports, state.running.frame);
        state.slot = 0;
        set_services(random, &mut state);
        wait(random, &mut state, ports, frame);
        let differ = served_flows(&state, &state.running) != served_flows(&state, &state.waiting);
        if differ && set_crossings(random, &mut state, past) {
            return state;
        }
    }
}

/// The flows that the boards choose by a plan.
fn served_flows(state: &Switch, plan: &Plan) -> Vec<usize> {
    let choice = |input: usize| state.boards[input].choose(plan.row(input), plan.frame, state.slot);
    (0..plan.ports).filter_map(|input| Some(state.flow(input, choice(input)?))).collect()
}

/// Answers false if no board serves a flow.
fn set_crossings(random: &mut Random, state: &mut Switch, past: bool) -> bool {
    let served = served_flows(state, state.ruling_plan());
    if served.is_empty() {
        return false;
    }
    for flow in 0..state.ports() * state.ports() {
        state.queues[flow].count = state.depth as u8;
        state.crosspoints[flow].count = if served.contains(&flow) { 1 } else { 2 };
    }
    let one = random.pick(&served);
    if past {
        state.crosspoints[one].count = 2;
    } else if random.flip() {
        state.crosspoints[one].count = 2;
        state.queues[one].count = 0;
    }
    true
}
