//! How many bytes the library copies and fills in an operation, and in how many calls: a change by which the compiler
//! copies the state once more is seen here.
//!
//! `bench/build.sh` links it with an archive that calls the functions below where it called memcpy, memmove and memset,
//! so that the program's own copies don't count. Nor does a copy that the compiler writes out without a call, as it
//! does with one of a known size up to about 128 bytes.

#[path = "../tests"]
mod tests {
    pub mod ffi;
    pub mod model;
    pub mod operations;
}
mod workload;
use tests::{ffi, model, operations};

use ffi::Library;
use model::Switch;
use operations::Operations;
use std::ffi::{c_int, c_void};
use std::sync::atomic::{AtomicU64, Ordering::Relaxed};
use workload::{fill_queues, Arrival, Workload, DEPTH, SIZES};

/// So many of each operation are counted: whole frames of slots.
const OPERATIONS: usize = 4096;

struct Counter {
    calls: AtomicU64,
    bytes: AtomicU64,
}

static COPIED: Counter = Counter::new();
static FILLED: Counter = Counter::new();

impl Counter {
    const fn new() -> Counter {
        Counter { calls: AtomicU64::new(0), bytes: AtomicU64::new(0) }
    }

    fn count(&self, bytes: usize) {
        self.calls.fetch_add(1, Relaxed);
        self.bytes.fetch_add(bytes as u64, Relaxed);
    }

    /// Calls and bytes so far; both begin anew.
    fn take(&self) -> [u64; 2] {
        [self.calls.swap(0, Relaxed), self.bytes.swap(0, Relaxed)]
    }
}

// SAFETY, for each function below: its caller keeps to what C asks for the function that it stands for.

#[no_mangle]
unsafe extern "C" fn gambyre_counted_memcpy(to: *mut c_void, from: *const c_void, bytes: usize) -> *mut c_void {
    COPIED.count(bytes);
    std::ptr::copy_nonoverlapping(from.cast::<u8>(), to.cast::<u8>(), bytes);
    to
}

#[no_mangle]
unsafe extern "C" fn gambyre_counted_memmove(to: *mut c_void, from: *const c_void, bytes: usize) -> *mut c_void {
    COPIED.count(bytes);
    std::ptr::copy(from.cast::<u8>(), to.cast::<u8>(), bytes);
    to
}

#[no_mangle]
unsafe extern "C" fn gambyre_counted_memset(to: *mut c_void, byte: c_int, bytes: usize) -> *mut c_void {
    FILLED.count(bytes);
    std::ptr::write_bytes(to.cast::<u8>(), byte as u8, bytes);
    to
}

fn main() {
    println!("bytes copied and filled by calls, for one operation");
    for (ports, frame) in SIZES {
        let workload = Workload::new(ports, frame);
        println!("N = {ports}, T = {frame}");
        report("slot", OPERATIONS, || slots(&workload));
        report("slot with a takeover", 1, || takeover(&workload));
        report("arrival", OPERATIONS, || arrivals(&workload));
        report("load", OPERATIONS, || loads(&workload));
    }
}

/// Prints the mean over so many operations.
fn report(name: &str, operations: usize, run: impl FnOnce()) {
    run();
    let mean = |sum: u64| sum as f64 / operations as f64;
    let [copies, copied] = COPIED.take().map(mean);
    let [fills, filled] = FILLED.take().map(mean);
    println!("  {name:<22}{copied:>10.1} copied in {copies:>5.1} calls{filled:>10.1} filled in {fills:>5.1} calls");
}

fn slots(workload: &Workload) {
    let mut state = workload.fresh;
    for _ in 0..OPERATIONS {
        fill_queues(&mut state, DEPTH);
        state = slot(&state, workload);
    }
}

/// The model loads the plan, which costs the library nothing.
fn takeover(workload: &Workload) {
    let mut state = workload.fresh;
    state.load(workload.ports, workload.frame, &workload.next_rates()).expect("the plan is accepted");
    assert!(state.takes_over());
    fill_queues(&mut state, DEPTH);
    slot(&state, workload);
}

fn slot(state: &Switch, workload: &Workload) -> Switch {
    let reply = Library::step(state, &workload.store);
    assert_eq!(reply.verdict, 0);
    reply.state
}

fn arrivals(workload: &Workload) {
    let mut state = workload.mid_frame();
    let mut store = workload.store.clone();
    for number in 0..OPERATIONS {
        fill_queues(&mut state, DEPTH / 2);
        let Arrival { input, output, cell } = workload.arrival(number);
        let reply = Library::arrive(&state, &mut store, input, output, cell);
        assert_eq!(reply.verdict, 0);
        state = reply.state;
    }
}

fn loads(workload: &Workload) {
    let state = workload.mid_frame();
    let rates = workload.next_rates();
    for _ in 0..OPERATIONS {
        let reply = Library::load(&state, workload.ports, workload.frame, &rates);
        assert_eq!(reply.verdict, 0);
    }
}
