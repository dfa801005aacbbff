//! NOT the proved library: the model under the names of the header. The archive made of this stands in
//! for the proved one where the comparison itself is put to the test, in `tests/mutants.sh`.
//!
//!     rustc --edition 2021 -O --crate-type staticlib tests/standin.rs -o target/standin/libgambyre.a

mod model;
mod operations;

use model::{Multiplexer, Switch};
use operations::{Choice, CoverReply, Model, Operations, Reading, Reply, SlotReply};
use std::slice::{from_raw_parts, from_raw_parts_mut};
use std::sync::Once;

/// Whatever is printed with this archive shall not be taken for a word on the proved library.
fn say_so() {
    static SAID: Once = Once::new();
    SAID.call_once(|| eprintln!("STAND-IN: libgambyre.a is the model here, not the proved library"));
}

// SAFETY, for each function below: as the header asks, a pointer and its length describe one list.

#[no_mangle]
extern "C" fn gambyre_version() -> u32 {
    Model::version()
}

#[no_mangle]
unsafe extern "C" fn gambyre_accept(n: usize, t: u32, rates: *const u16, rates_len: usize) -> u32 {
    Model::accept(n, t, from_raw_parts(rates, rates_len))
}

#[no_mangle]
unsafe extern "C" fn gambyre_desk_view(
    running: *const u16,
    running_len: usize,
    waiting: *const u16,
    waiting_len: usize,
    n: usize,
    i: usize,
    takeover: u32,
    out: *mut u16,
    out_len: usize,
) -> usize {
    let running = from_raw_parts(running, running_len);
    let waiting = from_raw_parts(waiting, waiting_len);
    Model::desk_view(running, waiting, n, i, takeover, from_raw_parts_mut(out, out_len))
}

#[no_mangle]
unsafe extern "C" fn gambyre_scale(
    n: usize,
    t: u32,
    demands: *const u16,
    demands_len: usize,
    rates: *mut u16,
    rates_len: usize,
) -> u32 {
    Model::scale(n, t, from_raw_parts(demands, demands_len), from_raw_parts_mut(rates, rates_len))
}

#[no_mangle]
unsafe extern "C" fn gambyre_boost(
    n: usize,
    t: u32,
    period: u32,
    given: *const u16,
    given_len: usize,
    rates: *mut u16,
    rates_len: usize,
) -> u32 {
    Model::boost(n, t, period, from_raw_parts(given, given_len), from_raw_parts_mut(rates, rates_len))
}

#[no_mangle]
unsafe extern "C" fn gambyre_read(bytes: *const u8, bytes_len: usize) -> Reading {
    Model::read(from_raw_parts(bytes, bytes_len))
}

#[no_mangle]
unsafe extern "C" fn gambyre_read_text(
    n: usize,
    t: u32,
    text: *const u8,
    text_len: usize,
    rates: *mut u16,
    rates_len: usize,
) -> u32 {
    Model::read_text(n, t, from_raw_parts(text, text_len), from_raw_parts_mut(rates, rates_len))
}

#[no_mangle]
unsafe extern "C" fn gambyre_choose(
    m: Multiplexer,
    rates: *const u16,
    rates_len: usize,
    frame: u32,
    slot: u32,
) -> Choice {
    say_so();
    Model::choose(&m, from_raw_parts(rates, rates_len), frame, slot)
}

#[no_mangle]
unsafe extern "C" fn gambyre_count(m: Multiplexer, choice: Choice) -> Multiplexer {
    Model::count(&m, choice)
}

#[no_mangle]
unsafe extern "C" fn gambyre_end_frame(m: Multiplexer, n: usize) -> Multiplexer {
    Model::end_frame(&m, n)
}

#[no_mangle]
unsafe extern "C" fn gambyre_start(
    n: usize,
    t: u32,
    rates: *const u16,
    rates_len: usize,
    depth: usize,
    store: *const u32,
    store_len: usize,
) -> Reply {
    Model::start(n, t, from_raw_parts(rates, rates_len), depth, from_raw_parts(store, store_len))
}

#[no_mangle]
unsafe extern "C" fn gambyre_arrive(
    s: Switch,
    store: *mut u32,
    store_len: usize,
    i: usize,
    j: usize,
    cell: u32,
) -> Reply {
    Model::arrive(&s, from_raw_parts_mut(store, store_len), i, j, cell)
}

#[no_mangle]
unsafe extern "C" fn gambyre_load(s: Switch, n: usize, t: u32, rates: *const u16, rates_len: usize) -> Reply {
    Model::load(&s, n, t, from_raw_parts(rates, rates_len))
}

#[no_mangle]
unsafe extern "C" fn gambyre_step(s: Switch, store: *const u32, store_len: usize) -> SlotReply {
    say_so();
    Model::step(&s, from_raw_parts(store, store_len))
}

#[no_mangle]
unsafe extern "C" fn gambyre_cover(record: *const u16, record_len: usize, flow: u16, l: usize) -> CoverReply {
    Model::cover(from_raw_parts(record, record_len), flow, l)
}
