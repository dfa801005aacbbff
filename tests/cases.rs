//! The cases for the bench, C1 to C11, and a few of our own, on any implementation of the operations.
#![allow(dead_code)] // each program that takes this module in uses its own part of it

use crate::model::meter::{Stretch, IDLE_SLOT};
use crate::model::{Multiplexer, Plan, Switch};
use crate::operations::{CoverReply, Operations, PortReply};

pub fn all<S: Operations>() {
    c1_and_c2_choices::<S>();
    ties::<S>();
    c3_one_cell::<S>();
    l4_two_cells::<S>();
    shares_reached::<S>();
    c4_scale::<S>();
    c5_boost::<S>();
    last_periods::<S>();
    c6_one_flow::<S>();
    c7_no_rates::<S>();
    c8_rows::<S>();
    c9_columns::<S>();
    c10_printout::<S>();
    c11_limits::<S>();
    deadlines_round_up::<S>();
    takeover_waits_for_the_frame::<S>();
    l5_replaced_plan::<S>();
    text_of_c3::<S>();
    l6_stretches::<S>();
    l6_two_boards::<S>();
    l8_longest_frame::<S>();
    refusal_examples::<S>();
    refusal_order::<S>();
    refusal_order_of_readers::<S>();
}

const C3_FRAME: u32 = 15;
const C3_PLAN: [u16; 9] = [13, 2, 0, 1, 10, 4, 1, 3, 11];

/// One port's choices of a frame, in the printout's way.
fn frame_choices<S: Operations>(rates: &[u16], frame: u32) -> Vec<String> {
    let mut multiplexer = Multiplexer::ZERO;
    let choices = (0..frame).map(|slot| {
        let choice = S::choose(&multiplexer, rates, frame, slot);
        multiplexer = S::count(&multiplexer, choice);
        choice.flow().map_or("-".to_string(), |flow| flow.to_string())
    });
    let choices = choices.collect();
    assert_eq!(S::end_frame(&multiplexer, rates.len()), Multiplexer::ZERO);
    choices
}

pub fn c1_and_c2_choices<S: Operations>() {
    assert_eq!(frame_choices::<S>(&[5, 2], 8).join(" "), "0 1 0 - 0 0 1 0", "C1");
    assert_eq!(frame_choices::<S>(&[2, 3, 1], 6).join(" "), "1 0 1 0 1 2", "C2");
}

/// L4's rule by itself, worked by hand: in slot 1 a tie of equal rates, in slot 2 one of rates 1 and 2.
pub fn ties<S: Operations>() {
    assert_eq!(frame_choices::<S>(&[1, 1, 2], 4).join(" "), "2 0 2 1", "L4");
}

/// Under the rule before L4 output 1 served in slot 13 in place of 10, and two cells lay in the crosspoint after slot 12.
pub fn c3_one_cell<S: Operations>() {
    let followed = Followed::frame::<S>(3, C3_FRAME, &C3_PLAN, 2, 1);
    assert_eq!(followed.board_slots, [1, 8, 12], "C3");
    assert_eq!(followed.head_slots, [1, 7, 10], "C3");
    assert_eq!(followed.empty_slots, [7], "C3");
    assert_eq!(followed.held[12], 1, "C3");
}

pub fn l4_two_cells<S: Operations>() {
    let followed = Followed::frame::<S>(2, 9, &[3, 4, 5, 2], 0, 0);
    assert_eq!(followed.board_slots, [1, 4, 6], "L4");
    assert_eq!(followed.head_slots, [1, 3, 7], "L4");
    assert_eq!(followed.empty_slots, [3], "L4");
    assert_eq!(followed.held, [0, 0, 0, 0, 1, 1, 2, 1, 1], "L4");
}

/// Both shares of demand 3 are reached: in slots 4 to 8 of the first no cell is sent, where 5 × 4 / 10 is 2, and in slots 1 to 3
/// of the second two are, where 3 × 2 / 6 is 1.
pub fn shares_reached<S: Operations>() {
    let lower = Followed::frame::<S>(2, 10, &[4, 6, 5, 0], 0, 0);
    assert_eq!(lower.board_slots, [1, 3, 6, 8], "lower share");
    assert_eq!(lower.head_slots, [1, 3, 5, 9], "lower share");
    assert_eq!(lower.empty_slots, [5], "lower share");
    let upper = Followed::frame::<S>(2, 6, &[2, 0, 3, 0], 0, 0);
    assert_eq!(upper.board_slots, [0, 3], "upper share");
    assert_eq!(upper.head_slots, [1, 3], "upper share");
    assert!(upper.empty_slots.is_empty(), "upper share");
}

/// The services of one flow that always has a cell waiting, and the cells in its crosspoint after each slot of a frame.
#[derive(Default)]
struct Followed {
    board_slots: Vec<u32>,
    head_slots: Vec<u32>,
    empty_slots: Vec<u32>,
    held: Vec<u8>,
}

impl Followed {
    fn frame<S: Operations>(ports: usize, frame: u32, plan: &[u16], input: usize, output: usize) -> Followed {
        const DEPTH: usize = 4;
        let flow = input * ports + output;
        let mut store = vec![0; ports * ports * DEPTH];
        let mut state = start::<S>(ports, frame, plan, DEPTH, &store);
        let mut followed = Followed::default();
        for slot in 0..frame {
            for _ in usize::from(state.queues[flow].count)..DEPTH {
                state = arrive::<S>(&state, &mut store, input, output, slot);
            }
            let reply = S::step(&state, &store);
            assert_eq!(reply.verdict, 0, "slot {slot}");
            if reply.moves[input].kind != 0 && reply.moves[input].other == output {
                followed.board_slots.push(slot);
            }
            if reply.sends[output].kind != 0 && reply.sends[output].other == input {
                followed.head_slots.push(slot);
                if reply.sends[output].kind == 1 {
                    followed.empty_slots.push(slot);
                }
            }
            state = reply.state;
            followed.held.push(state.crosspoints[flow].count);
        }
        followed
    }
}

pub fn c4_scale<S: Operations>() {
    let mut rates = [9; 9];
    assert_eq!(S::scale(3, 10, &[4, 5, 6, 3, 5, 5, 2, 1, 6], &mut rates), 0, "C4");
    assert_eq!(rates, [2, 3, 3, 2, 3, 2, 2, 0, 3], "C4");
}

pub fn c5_boost<S: Operations>() {
    let period_0 = [4, 3, 3, 2, 6, 2, 4, 1, 5];
    let periods = [period_0, [2, 5, 3, 2, 4, 4, 6, 1, 3], [2, 3, 5, 5, 3, 2, 3, 4, 3], period_0];
    for (period, expected) in (0..).zip(periods) {
        let mut rates = [9; 9];
        assert_eq!(S::boost(3, 10, period, &[2, 3, 3, 2, 3, 2, 2, 0, 3], &mut rates), 0, "C5, period {period}");
        assert_eq!(rates, expected, "C5, period {period}");
    }
}

/// With N = 7 these periods begin on diagonals 5 and 3, and a sum of 32 bits would wrap on the way. The plans were worked
/// out apart from both implementations.
pub fn last_periods<S: Operations>() {
    for (period, expected) in [(4_294_967_290, FIVE_FIRST), (4_294_967_295, THREE_FIRST)] {
        let mut rates = [9; 49];
        assert_eq!(S::boost(7, 6, period, &SEVEN_PORTS.concat(), &mut rates), 0, "period {period}");
        assert_eq!(rates[..], expected.concat(), "period {period}");
    }
}

const SEVEN_PORTS: [[u16; 7]; 7] = [
    [0, 0, 1, 0, 0, 0, 0],
    [0, 2, 0, 0, 1, 2, 0],
    [0, 0, 0, 1, 1, 0, 1],
    [0, 1, 0, 1, 2, 2, 0],
    [0, 1, 0, 2, 1, 2, 0],
    [0, 1, 0, 0, 1, 0, 0],
    [0, 0, 2, 0, 0, 0, 0],
];
const FIVE_FIRST: [[u16; 7]; 7] = [
    [1, 0, 1, 0, 0, 0, 4],
    [0, 2, 0, 0, 1, 2, 1],
    [3, 0, 0, 1, 1, 0, 1],
    [0, 1, 0, 1, 2, 2, 0],
    [0, 1, 0, 2, 1, 2, 0],
    [0, 1, 2, 2, 1, 0, 0],
    [2, 1, 3, 0, 0, 0, 0],
];
const THREE_FIRST: [[u16; 7]; 7] = [
    [2, 0, 1, 2, 0, 0, 1],
    [0, 2, 0, 0, 1, 2, 1],
    [0, 0, 0, 1, 1, 0, 4],
    [0, 1, 0, 1, 2, 2, 0],
    [0, 1, 0, 2, 1, 2, 0],
    [3, 2, 0, 0, 1, 0, 0],
    [1, 0, 5, 0, 0, 0, 0],
];

pub fn c6_one_flow<S: Operations>() {
    assert_eq!(frame_choices::<S>(&[1], 1), ["0"], "C6");
    let store = [0];
    let mut state = start::<S>(1, 1, &[1], 1, &store);
    for _ in 0..5 {
        let reply = S::step(&state, &store);
        let served_in_vain = PortReply { kind: 1, other: 0, cell: 0 };
        assert_eq!((reply.verdict, reply.moves[0], reply.sends[0]), (0, served_in_vain, served_in_vain), "C6");
        state = reply.state;
    }
}

pub fn c7_no_rates<S: Operations>() {
    assert_eq!(S::accept(2, 4, &[0; 4]), 0, "C7");
    let store = [0; 4];
    let mut state = start::<S>(2, 4, &[0; 4], 1, &store);
    for _ in 0..8 {
        let reply = S::step(&state, &store);
        assert_eq!(reply.verdict, 0, "C7");
        assert!(reply.moves.iter().chain(&reply.sends).all(|port| port.kind == 0), "C7");
        state = reply.state;
    }
}

pub fn c8_rows<S: Operations>() {
    assert_eq!(S::accept(2, 3, &[1, 2, 0, 0]), 0, "C8");
    assert_eq!(S::accept(2, 3, &[2, 2, 0, 0]), 4, "C8");
}

pub fn c9_columns<S: Operations>() {
    assert_eq!(S::accept(2, 3, &[2, 0, 2, 0]), 5, "C9");
    assert_eq!(S::accept(2, 3, &[3, 1, 1, 0]), 4, "C9");
}

/// The printout, put together from the reader and the choices.
pub fn c10_printout<S: Operations>() {
    let reading = S::read(&C10_FILE);
    assert_eq!((reading.verdict, reading.plan.ports, reading.plan.frame), (0, 2, 2), "C10");
    let rates = &reading.plan.rates;
    let lines = [[rates[0], rates[1]], [rates[2], rates[3]], [rates[0], rates[2]], [rates[1], rates[3]]];
    let ports = lines.map(|line| frame_choices::<S>(&line, 2));
    let mut text = "slot in0 in1 out0 out1\n".to_string();
    for slot in 0..2 {
        text += &format!("{slot} {} {} {} {}\n", ports[0][slot], ports[1][slot], ports[2][slot], ports[3][slot]);
    }
    assert_eq!(text, C10_TEXT, "C10");
}

pub const C10_FILE: [u8; 16] = [0x4C, 0x53, 0x50, 1, 0, 2, 2, 0, 1, 0, 1, 0, 1, 0, 0, 0];
pub const C10_TEXT: &str = "slot in0 in1 out0 out1\n0 0 0 0 0\n1 1 - 1 -\n";

pub fn c11_limits<S: Operations>() {
    let mut store = vec![0; 64];
    let mut state = start::<S>(1, 2, &[1], 64, &store);
    for cell in 1..=64 {
        state = arrive::<S>(&state, &mut store, 0, 0, cell);
    }
    let reply = S::arrive(&state, &mut store, 0, 0, 65);
    assert_eq!((reply.verdict, reply.state), (11, state), "C11");
    assert_eq!(store, (1..=64).collect::<Vec<u32>>(), "C11");
    assert_eq!(S::accept(1, 1024, &[1024]), 0, "C11");
    assert_eq!(S::accept(1, 1025, &[1024]), 2, "C11");
}

/// Worked by hand. In slot 8 the deadlines are 48 / 5 and 60 / 6: a tie once rounded up, so the smaller quotient waits.
pub fn deadlines_round_up<S: Operations>() {
    assert_eq!(frame_choices::<S>(&[5, 6], 12).join(" "), "1 0 1 0 1 0 1 - 1 0 1 0");
}

/// A plan loaded in mid-frame takes over in the next slot 0 and leaves no trace in the waiting place.
pub fn takeover_waits_for_the_frame<S: Operations>() {
    let store = [0];
    let mut state = start::<S>(1, 3, &[1], 1, &store);
    let mut kinds = vec![];
    for slot in 0..6 {
        if slot == 1 {
            let loaded = S::load(&state, 1, 3, &[3]);
            assert_eq!((loaded.verdict, loaded.state.waits), (0, 1));
            state = loaded.state;
        }
        let reply = S::step(&state, &store);
        kinds.push(reply.moves[0].kind);
        state = reply.state;
        assert_eq!(state.waits, u8::from(slot == 1 || slot == 2));
    }
    assert_eq!(kinds, [1, 0, 0, 1, 1, 1]);
    assert_eq!((state.running.rates[0], state.waiting), (3, Plan::ZERO));
}

/// Of two plans loaded in one frame the second takes over. With the first, board 0 would serve head 0 in slots 4 to 7.
pub fn l5_replaced_plan<S: Operations>() {
    let store = [0; 4];
    let mut state = start::<S>(2, 4, &[1; 4], 1, &store);
    let (mut rates, mut served) = (vec![], vec![]);
    for slot in 0..8 {
        let plan = match slot {
            1 => Some([4, 0, 0, 4]),
            2 => Some([3, 1, 1, 3]),
            _ => None,
        };
        if let Some(plan) = plan {
            let loaded = S::load(&state, 2, 4, &plan);
            assert_eq!((loaded.verdict, loaded.state.waits), (0, 1), "L5");
            state = loaded.state;
        }
        let reply = S::step(&state, &store);
        state = reply.state;
        rates.push(state.running.rates[0]);
        if (reply.moves[0].kind, reply.moves[0].other) == (1, 0) {
            served.push(slot);
        }
    }
    assert_eq!(rates, [1, 1, 1, 1, 3, 3, 3, 3], "L5");
    assert_eq!(served, [0, 4, 6, 7], "L5");
}

/// The plan of C3 as planners write it.
pub fn text_of_c3<S: Operations>() {
    let mut rates = [9; 9];
    assert_eq!(S::read_text(3, C3_FRAME, b"13,2,0\r\n1,\"10\",4\r\n01,00003,11\r\n", &mut rates), 0);
    assert_eq!(rates, C3_PLAN);
}

/// Counted by hand.
pub fn l6_stretches<S: Operations>() {
    let record = [0, 1, 0, 0, IDLE_SLOT, 0, 1, 1, 0, IDLE_SLOT];
    for (flow, length, least, most) in [
        (0, 3, (1, 4), (2, 0)),
        (1, 3, (0, 2), (2, 5)),
        (IDLE_SLOT, 3, (0, 0), (1, 2)),
        (2, 3, (0, 0), (0, 0)),
        (0, 1, (0, 1), (1, 0)),
        (1, 1, (0, 0), (1, 1)),
        (0, 9, (4, 1), (5, 0)),
        (0, 10, (5, 0), (5, 0)),
        (0, 0, (0, 0), (0, 0)),
    ] {
        assert_eq!(S::cover(&record, flow, length), covered(least, most), "L6, flow {flow} l {length}");
    }
    assert_eq!(S::cover(&[], 0, 0), covered((0, 0), (0, 0)), "L6");
}

/// The flow of the picture in README.md, which head 0 serves in slots 1, 3 and 7 of each frame of 9. In any 3 slots up to
/// 2 services are promised, and none at least; there are 2 in slots 1 to 3, and none in slots 4 to 6.
pub fn l6_two_boards<S: Operations>() {
    let store = [0; 4];
    let mut state = start::<S>(2, 9, &[3, 4, 5, 2], 1, &store);
    let mut record = vec![];
    for _ in 0..3 * 9 {
        let reply = S::step(&state, &store);
        let head = &reply.sends[0];
        record.push(if head.kind == 0 { IDLE_SLOT } else { head.other as u16 });
        state = reply.state;
    }
    assert_eq!(record[..9], [1, 0, 1, 0, 1, IDLE_SLOT, 1, 0, 1], "L6");
    assert_eq!(S::cover(&record, 0, 3), covered((0, 4), (2, 1)), "L6");
    assert_eq!(S::cover(&record, 0, 5), covered((1, 2), (2, 0)), "L6");
    assert_eq!(S::cover(&record, 0, 9), covered((3, 0), (3, 0)), "L6");
    assert_eq!(S::cover(&record, IDLE_SLOT, 9), covered((1, 0), (1, 0)), "L6");
}

/// An accepted answer: services and place.
fn covered(least: (usize, usize), most: (usize, usize)) -> CoverReply {
    let stretch = |(services, place)| Stretch { services, place };
    CoverReply { verdict: 0, least: stretch(least), most: stretch(most) }
}

/// A plan of 1,025 slots or more is refused 2 wherever it comes from, and a state that a hand gave one is refused 12.
pub fn l8_longest_frame<S: Operations>() {
    for (frame, verdict) in [(1024, 0), (1025, 2), (4096, 2), (u16::MAX, 2)] {
        let slots = u32::from(frame);
        let [low, high] = frame.to_le_bytes();
        assert_eq!(S::accept(1, slots, &[1]), verdict, "L8, plan");
        assert_eq!(S::start(1, slots, &[1], 1, &[0]).verdict, verdict, "L8, start");
        assert_eq!(S::read(&[b'L', b'S', b'P', 1, 0, 1, low, high, 1, 0]).verdict, verdict, "L8, file");
        assert_eq!(S::read_text(1, slots, b"1", &mut [0]), verdict, "L8, text");
        assert_eq!(S::scale(1, slots, &[1], &mut [0]), verdict, "L8, scale");
        assert_eq!(S::boost(1, slots, 0, &[1], &mut [0]), verdict, "L8, boost");
    }
    let longest = start::<S>(1, 1024, &[1024], 1, &[0]);
    assert_eq!(S::load(&longest, 1, 1025, &[1024]).verdict, 2, "L8, load");
    let loaded = S::load(&longest, 1, 1024, &[1]);
    assert_eq!(loaded.verdict, 0, "L8, load");
    assert_eq!(S::step(&loaded.state, &[0]).verdict, 0, "L8, both plans of 1,024 slots");
    for (running, waiting) in [(1025, 1024), (1024, 1025), (1025, 1025)] {
        let mut state = loaded.state;
        (state.running.frame, state.waiting.frame) = (running, waiting);
        assert_eq!(S::load(&state, 1, running, &[1]).verdict, 12, "L8, state");
        assert_eq!(S::arrive(&state, &mut [0], 0, 0, 7).verdict, 12, "L8, state");
        assert_eq!(S::step(&state, &[0]).verdict, 12, "L8, state");
    }
}

/// The small examples of the table of refusals.
pub fn refusal_examples<S: Operations>() {
    let store = [0; 4];
    let mut one_place = [0; 1];
    assert_eq!(S::accept(17, 4, &[0; 289]), 1);
    assert_eq!(S::accept(1, 0, &[0]), 2);
    assert_eq!(S::accept(2, 4, &[0; 3]), 3);
    assert_eq!(S::accept(2, 3, &[2, 2, 0, 0]), 4);
    assert_eq!(S::accept(2, 3, &[2, 0, 2, 0]), 5);
    let refused = S::start(1, 4, &[1], 65, &[0; 65]);
    assert_eq!((refused.verdict, refused.state), (6, Switch::ZERO));
    let refused = S::start(1, 4, &[1], 2, &[0; 3]);
    assert_eq!((refused.verdict, refused.state), (7, Switch::ZERO));

    let two_ports = start::<S>(2, 6, &[1; 4], 1, &store);
    assert_eq!(S::load(&two_ports, 2, 8, &[1; 4]).verdict, 8);
    let loaded = S::load(&two_ports, 2, 6, &[2; 4]);
    assert_eq!((loaded.verdict, loaded.state.waits), (0, 1));
    let again = S::load(&loaded.state, 2, 6, &[3; 4]);
    assert_eq!((again.verdict, again.state), (0, S::load(&two_ports, 2, 6, &[3; 4]).state), "9 before L5");
    assert_eq!(S::arrive(&two_ports, &mut [0; 4], 0, 2, 7).verdict, 10);
    let one_port = start::<S>(1, 2, &[1], 1, &one_place);
    let mut full = arrive::<S>(&one_port, &mut one_place, 0, 0, 7);
    assert_eq!(S::arrive(&full, &mut one_place, 0, 0, 8).verdict, 11);
    assert_eq!(one_place, [7]);
    assert_eq!(S::step(&Switch { slot: 2, ..full }, &one_place).verdict, 12);
    full.crosspoints[0].count = 2;
    let refused = S::step(&full, &one_place);
    assert_eq!((refused.verdict, refused.state, refused.moves[0].kind), (13, full, 0));
    let mut second_version = C10_FILE;
    second_version[3] = 2;
    assert_eq!(S::read(&second_version).verdict, 14);
    assert_eq!(S::read(&[]).verdict, 15);
    assert_eq!(S::read_text(2, 4, b"1,1\n1,1\n", &mut [0; 4]), 16);
    let refused = CoverReply { verdict: 17, ..covered((0, 0), (0, 0)) };
    assert_eq!(S::cover(&[7; 3], 7, 4), refused);
    assert_eq!(S::cover(&[7; 65_536], 7, 1), refused);
}

/// Where several conditions hold, the first in the operation's order decides.
pub fn refusal_order<S: Operations>() {
    assert_eq!(S::accept(0, 0, &[1]), 1);
    assert_eq!(S::accept(2, 0, &[]), 2);
    assert_eq!(S::accept(2, 1, &[9; 3]), 3);
    assert_eq!(S::accept(2, 1, &[1, 0, 1, 1]), 4, "a later row before an earlier column");
    assert_eq!(S::start(2, 1, &[1, 0, 1, 0], 0, &[]).verdict, 5);
    assert_eq!(S::start(2, 1, &[0; 4], 0, &[]).verdict, 6);
    let mut rates = [8; 4];
    assert_eq!(S::scale(2, 0, &[], &mut rates), 2);
    assert_eq!(S::boost(2, 1, 1, &[9; 4], &mut rates[..3]), 3);
    assert_eq!(rates, [8; 4]);

    let mut state = start::<S>(1, 1, &[1], 1, &[0]);
    assert_eq!(S::load(&state, 17, 2, &[]).verdict, 1);
    assert_eq!(S::load(&state, 1, 2, &[3]).verdict, 4);
    state = S::load(&state, 1, 1, &[1]).state;
    assert_eq!(S::load(&state, 1, 2, &[1]).verdict, 8);
    assert_eq!(S::arrive(&state, &mut [0; 2], 1, 1, 0).verdict, 7);
    state.queues[0].count = 1;
    assert_eq!(S::arrive(&state, &mut [0], 0, 1, 0).verdict, 10);
    state.crosspoints[0].count = 2;
    assert_eq!(S::step(&state, &[0; 2]).verdict, 7);
    state.depth = 0;
    assert_eq!(S::load(&state, 17, 0, &[]).verdict, 12);
    assert_eq!(S::arrive(&state, &mut [], 1, 1, 0).verdict, 12);
    assert_eq!(S::step(&state, &[]).verdict, 12);
}

/// The same where a file or a text is read.
pub fn refusal_order_of_readers<S: Operations>() {
    assert_eq!(S::read(b"XSP\x01\0\0\0").verdict, 15);
    assert_eq!(S::read(b"XSP\x01\0\0\0\0").verdict, 14);
    assert_eq!(S::read(b"LSP\x01\0\0\0\0").verdict, 1);
    assert_eq!(S::read(b"LSP\x01\0\x01\0\0").verdict, 2);
    assert_eq!(S::read(b"LSP\x01\0\x01\x01\0\x02").verdict, 15);
    assert_eq!(S::read(b"LSP\x01\0\x01\x01\0\x02\0").verdict, 4);

    let mut rates = [8; 4];
    assert_eq!(S::read_text(17, 0, b"", &mut rates), 1);
    assert_eq!(S::read_text(2, 1025, b"", &mut rates[..3]), 2);
    assert_eq!(S::read_text(2, 1, b"", &mut rates[..3]), 3);
    assert_eq!(S::read_text(2, 1, b"9,9\r\n9,", &mut rates), 16);
    assert_eq!(S::read_text(2, 1, b"1,0\r\n1,1", &mut rates), 4, "a later row before an earlier column");
    assert_eq!(S::read_text(2, 1, b"1,0\r\n1,0", &mut rates), 5);
    assert_eq!(rates, [8; 4]);
}

fn start<S: Operations>(ports: usize, frame: u32, rates: &[u16], depth: usize, store: &[u32]) -> Switch {
    let reply = S::start(ports, frame, rates, depth, store);
    assert_eq!(reply.verdict, 0);
    reply.state
}

fn arrive<S: Operations>(state: &Switch, store: &mut [u32], input: usize, output: usize, cell: u32) -> Switch {
    let reply = S::arrive(state, store, input, output, cell);
    assert_eq!(reply.verdict, 0);
    reply.state
}
