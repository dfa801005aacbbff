//! The proved library through its C interface, `include/gambyre.h`.

use crate::model::meter::Stretch;
use crate::model::{Multiplexer, Plan, Switch};
use crate::operations::{Choice, CoverReply, Operations, PortReply, Reading, Reply, SlotReply};
use std::mem::size_of;

// The sizes that a C compiler gives the header's records on a 64-bit machine.
const _: () = {
    assert!(size_of::<Plan>() == 528);
    assert!(size_of::<Multiplexer>() == 32);
    assert!(size_of::<Switch>() == 5688);
    assert!(size_of::<Reply>() == 5696);
    assert!(size_of::<PortReply>() == 24);
    assert!(size_of::<SlotReply>() == 6464);
    assert!(size_of::<Reading>() == 536);
    assert!(size_of::<Choice>() == 16);
    assert!(size_of::<Stretch>() == 16);
    assert!(size_of::<CoverReply>() == 40);
};

#[link(name = "gambyre", kind = "static")]
extern "C" {
    fn gambyre_version() -> u32;
    fn gambyre_accept(n: usize, t: u32, rates: *const u16, rates_len: usize) -> u32;
    fn gambyre_desk_view(
        running: *const u16,
        running_len: usize,
        waiting: *const u16,
        waiting_len: usize,
        n: usize,
        i: usize,
        takeover: u32,
        out: *mut u16,
        out_len: usize,
    ) -> usize;
    fn gambyre_scale(
        n: usize,
        t: u32,
        demands: *const u16,
        demands_len: usize,
        rates: *mut u16,
        rates_len: usize,
    ) -> u32;
    fn gambyre_boost(
        n: usize,
        t: u32,
        period: u32,
        given: *const u16,
        given_len: usize,
        rates: *mut u16,
        rates_len: usize,
    ) -> u32;
    fn gambyre_read(bytes: *const u8, bytes_len: usize) -> Reading;
    fn gambyre_read_text(n: usize, t: u32, text: *const u8, text_len: usize, rates: *mut u16, rates_len: usize) -> u32;
    fn gambyre_choose(m: Multiplexer, rates: *const u16, rates_len: usize, frame: u32, slot: u32) -> Choice;
    fn gambyre_count(m: Multiplexer, choice: Choice) -> Multiplexer;
    fn gambyre_end_frame(m: Multiplexer, n: usize) -> Multiplexer;
    fn gambyre_start(
        n: usize,
        t: u32,
        rates: *const u16,
        rates_len: usize,
        depth: usize,
        store: *const u32,
        store_len: usize,
    ) -> Reply;
    fn gambyre_arrive(s: Switch, store: *mut u32, store_len: usize, i: usize, j: usize, cell: u32) -> Reply;
    fn gambyre_load(s: Switch, n: usize, t: u32, rates: *const u16, rates_len: usize) -> Reply;
    fn gambyre_step(s: Switch, store: *const u32, store_len: usize) -> SlotReply;
    fn gambyre_cover(record: *const u16, record_len: usize, flow: u16, l: usize) -> CoverReply;
}

pub struct Library;

// SAFETY, for each call below: a pointer and its length come from one slice that outlives the call, and
// the library writes only where the header's pointer isn't const.
impl Operations for Library {
    fn version() -> u32 {
        unsafe { gambyre_version() }
    }

    fn accept(ports: usize, frame: u32, rates: &[u16]) -> u32 {
        unsafe { gambyre_accept(ports, frame, rates.as_ptr(), rates.len()) }
    }

    fn desk_view(
        running: &[u16],
        waiting: &[u16],
        ports: usize,
        input: usize,
        takeover: u32,
        out: &mut [u16],
    ) -> usize {
        unsafe {
            gambyre_desk_view(
                running.as_ptr(),
                running.len(),
                waiting.as_ptr(),
                waiting.len(),
                ports,
                input,
                takeover,
                out.as_mut_ptr(),
                out.len(),
            )
        }
    }

    fn scale(ports: usize, frame: u32, demands: &[u16], rates: &mut [u16]) -> u32 {
        unsafe { gambyre_scale(ports, frame, demands.as_ptr(), demands.len(), rates.as_mut_ptr(), rates.len()) }
    }

    fn boost(ports: usize, frame: u32, period: u32, given: &[u16], rates: &mut [u16]) -> u32 {
        unsafe { gambyre_boost(ports, frame, period, given.as_ptr(), given.len(), rates.as_mut_ptr(), rates.len()) }
    }

    fn read(bytes: &[u8]) -> Reading {
        unsafe { gambyre_read(bytes.as_ptr(), bytes.len()) }
    }

    fn read_text(ports: usize, frame: u32, text: &[u8], rates: &mut [u16]) -> u32 {
        unsafe { gambyre_read_text(ports, frame, text.as_ptr(), text.len(), rates.as_mut_ptr(), rates.len()) }
    }

    fn choose(multiplexer: &Multiplexer, rates: &[u16], frame: u32, slot: u32) -> Choice {
        unsafe { gambyre_choose(*multiplexer, rates.as_ptr(), rates.len(), frame, slot) }
    }

    fn count(multiplexer: &Multiplexer, choice: Choice) -> Multiplexer {
        unsafe { gambyre_count(*multiplexer, choice) }
    }

    fn end_frame(multiplexer: &Multiplexer, ports: usize) -> Multiplexer {
        unsafe { gambyre_end_frame(*multiplexer, ports) }
    }

    fn start(ports: usize, frame: u32, rates: &[u16], depth: usize, store: &[u32]) -> Reply {
        unsafe { gambyre_start(ports, frame, rates.as_ptr(), rates.len(), depth, store.as_ptr(), store.len()) }
    }

    fn arrive(state: &Switch, store: &mut [u32], input: usize, output: usize, cell: u32) -> Reply {
        unsafe { gambyre_arrive(*state, store.as_mut_ptr(), store.len(), input, output, cell) }
    }

    fn load(state: &Switch, ports: usize, frame: u32, rates: &[u16]) -> Reply {
        unsafe { gambyre_load(*state, ports, frame, rates.as_ptr(), rates.len()) }
    }

    fn step(state: &Switch, store: &[u32]) -> SlotReply {
        unsafe { gambyre_step(*state, store.as_ptr(), store.len()) }
    }

    fn cover(record: &[u16], flow: u16, length: usize) -> CoverReply {
        unsafe { gambyre_cover(record.as_ptr(), record.len(), flow, length) }
    }
}
