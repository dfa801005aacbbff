//! The public operations in the terms of the header, and the model put into these terms.
#![allow(dead_code)] // each program that takes this module in uses its own part of it

use crate::model::meter::{self, Cover, Stretch};
use crate::model::plan::{self, MOST_PORTS};
use crate::model::refusal::number;
use crate::model::{by_value, planfile, plantext, regulator, Multiplexer, Plan, Port, Switch, VERSION};

#[derive(Clone, Copy, Debug, PartialEq, Eq)]
#[repr(C)]
pub struct Reply {
    pub verdict: u32,
    pub state: Switch,
}

/// Kind: 0 idle, 1 empty, 2 moved.
#[derive(Clone, Copy, Debug, PartialEq, Eq)]
#[repr(C)]
pub struct PortReply {
    pub kind: u32,
    pub other: usize,
    pub cell: u32,
}

#[derive(Clone, Copy, Debug, PartialEq, Eq)]
#[repr(C)]
pub struct SlotReply {
    pub verdict: u32,
    pub state: Switch,
    pub moves: [PortReply; MOST_PORTS],
    pub sends: [PortReply; MOST_PORTS],
}

#[derive(Clone, Copy, Debug, PartialEq, Eq)]
#[repr(C)]
pub struct Reading {
    pub verdict: u32,
    pub plan: Plan,
}

/// Kind: 0 idle, 1 flow.
#[derive(Clone, Copy, Debug, PartialEq, Eq)]
#[repr(C)]
pub struct Choice {
    pub kind: u32,
    pub flow: usize,
}

#[derive(Clone, Copy, Debug, PartialEq, Eq)]
#[repr(C)]
pub struct CoverReply {
    pub verdict: u32,
    pub least: Stretch,
    pub most: Stretch,
}

/// One implementation of the switch. States are lent here, and copied where the header takes them by value.
pub trait Operations {
    fn version() -> u32;
    fn accept(ports: usize, frame: u32, rates: &[u16]) -> u32;
    fn desk_view(running: &[u16], waiting: &[u16], ports: usize, input: usize, takeover: u32, out: &mut [u16])
        -> usize;
    fn scale(ports: usize, frame: u32, demands: &[u16], rates: &mut [u16]) -> u32;
    fn boost(ports: usize, frame: u32, period: u32, given: &[u16], rates: &mut [u16]) -> u32;
    fn read(bytes: &[u8]) -> Reading;
    fn read_text(ports: usize, frame: u32, text: &[u8], rates: &mut [u16]) -> u32;
    fn choose(multiplexer: &Multiplexer, rates: &[u16], frame: u32, slot: u32) -> Choice;
    fn count(multiplexer: &Multiplexer, choice: Choice) -> Multiplexer;
    fn end_frame(multiplexer: &Multiplexer, ports: usize) -> Multiplexer;
    fn start(ports: usize, frame: u32, rates: &[u16], depth: usize, store: &[u32]) -> Reply;
    fn arrive(state: &Switch, store: &mut [u32], input: usize, output: usize, cell: u32) -> Reply;
    fn load(state: &Switch, ports: usize, frame: u32, rates: &[u16]) -> Reply;
    fn step(state: &Switch, store: &[u32]) -> SlotReply;
    fn cover(record: &[u16], flow: u16, length: usize) -> CoverReply;
}

pub struct Model;

impl Operations for Model {
    fn version() -> u32 {
        VERSION
    }

    fn accept(ports: usize, frame: u32, rates: &[u16]) -> u32 {
        number(&plan::accept(ports, frame, rates))
    }

    fn desk_view(
        running: &[u16],
        waiting: &[u16],
        ports: usize,
        input: usize,
        takeover: u32,
        out: &mut [u16],
    ) -> usize {
        let row = plan::desk_view(running, waiting, ports, input, takeover != 0);
        let fits = row.len().min(out.len());
        out[..fits].copy_from_slice(&row[..fits]);
        row.len()
    }

    fn scale(ports: usize, frame: u32, demands: &[u16], rates: &mut [u16]) -> u32 {
        number(&regulator::scale(ports, frame, demands, rates))
    }

    fn boost(ports: usize, frame: u32, period: u32, given: &[u16], rates: &mut [u16]) -> u32 {
        number(&regulator::boost(ports, frame, period, given, rates))
    }

    fn read(bytes: &[u8]) -> Reading {
        let outcome = planfile::read(bytes);
        Reading { verdict: number(&outcome), plan: outcome.unwrap_or(Plan::ZERO) }
    }

    fn read_text(ports: usize, frame: u32, text: &[u8], rates: &mut [u16]) -> u32 {
        number(&plantext::read(ports, frame, text, rates))
    }

    fn choose(multiplexer: &Multiplexer, rates: &[u16], frame: u32, slot: u32) -> Choice {
        Choice::from(multiplexer.choose(rates, frame, slot))
    }

    fn count(multiplexer: &Multiplexer, choice: Choice) -> Multiplexer {
        by_value::count(*multiplexer, choice.flow())
    }

    fn end_frame(multiplexer: &Multiplexer, ports: usize) -> Multiplexer {
        by_value::end_frame(*multiplexer, ports)
    }

    fn start(ports: usize, frame: u32, rates: &[u16], depth: usize, store: &[u32]) -> Reply {
        let outcome = Switch::start(ports, frame, rates, depth, store);
        Reply { verdict: number(&outcome), state: outcome.unwrap_or(Switch::ZERO) }
    }

    fn arrive(state: &Switch, store: &mut [u32], input: usize, output: usize, cell: u32) -> Reply {
        let mut reply = Reply { verdict: 0, state: *state };
        reply.verdict = number(&reply.state.arrive(store, input, output, cell));
        reply
    }

    fn load(state: &Switch, ports: usize, frame: u32, rates: &[u16]) -> Reply {
        let mut reply = Reply { verdict: 0, state: *state };
        reply.verdict = number(&reply.state.load(ports, frame, rates));
        reply
    }

    fn step(state: &Switch, store: &[u32]) -> SlotReply {
        let idle = PortReply::from(Port::Idle);
        let mut reply = SlotReply { verdict: 0, state: *state, moves: [idle; MOST_PORTS], sends: [idle; MOST_PORTS] };
        let outcome = reply.state.step(store);
        reply.verdict = number(&outcome);
        if let Ok(answer) = outcome {
            reply.moves = answer.moves.map(PortReply::from);
            reply.sends = answer.sends.map(PortReply::from);
        }
        reply
    }

    fn cover(record: &[u16], flow: u16, length: usize) -> CoverReply {
        let outcome = meter::cover(record, flow, length);
        let verdict = number(&outcome);
        let Cover { least, most } = outcome.unwrap_or(Cover::ZERO);
        CoverReply { verdict, least, most }
    }
}

impl From<Port> for PortReply {
    fn from(port: Port) -> PortReply {
        match port {
            Port::Idle => PortReply { kind: 0, other: 0, cell: 0 },
            Port::Empty { other } => PortReply { kind: 1, other, cell: 0 },
            Port::Moved { other, cell } => PortReply { kind: 2, other, cell },
        }
    }
}

impl From<Option<usize>> for Choice {
    fn from(choice: Option<usize>) -> Choice {
        match choice {
            None => Choice { kind: 0, flow: 0 },
            Some(flow) => Choice { kind: 1, flow },
        }
    }
}

impl Choice {
    pub fn flow(&self) -> Option<usize> {
        (self.kind != 0).then_some(self.flow)
    }
}
