//! What a slot, an arrival, a load, a choice, reading a text, boosting a plan and measuring a record cost: the proved
//! library through its C interface, the model by value and the model in place, timed in turn in one run. For a slot also a
//! switch that does less; for a choice, a text, for boost and the meter plain Rust that goes about it as the library does.
//! Slots and choices are timed once more in frames of 64 slots, whose deadlines are read, beside frames of 63.
//!
//! `bench/run.sh` builds and runs it. With PORTS FRAME REPEATS it times one size, each batch that many times: for a
//! profiler.

mod boost;
mod calls;
mod choice;
mod clock;
mod meter;
mod slot;
#[path = "../tests"]
mod tests {
    pub mod ffi;
    pub mod model;
    pub mod operations;
}
mod text;
mod unchecked;
mod workload;
use tests::{ffi, model, operations};

use clock::{report, report_other, report_proved};
use workload::{Workload, SIZES};

const REPEATS: usize = 30;
/// Frames whose deadlines are read, each before one whose deadlines are divided for: slots and choices are timed.
const TABLE_SIZES: [(usize, u32); 6] = [(4, 64), (4, 63), (8, 64), (8, 63), (16, 64), (16, 63)];

fn main() {
    let arguments: Vec<u32> = std::env::args().skip(1).filter_map(|argument| argument.parse().ok()).collect();
    match arguments[..] {
        [] => {
            SIZES.into_iter().for_each(|(ports, frame)| time_all(ports, frame, REPEATS));
            TABLE_SIZES.into_iter().for_each(|(ports, frame)| time_slots(&Workload::new(ports, frame), REPEATS));
        }
        [ports, frame, repeats] => time_all(ports as usize, frame, repeats as usize),
        _ => eprintln!("use: bench [ports frame repeats]"),
    }
}

fn time_all(ports: usize, frame: u32, repeats: usize) {
    let workload = Workload::new(ports, frame);
    let size = format!("N = {ports}, T = {frame}");
    time_slots(&workload, repeats);
    report(&format!("arrival, {size}, queues half full"), calls::arrival_times(&workload, repeats));
    report(&format!("load, {size}"), calls::load_times(&workload, repeats));
    time_text(&workload, repeats);
    time_boost(&workload, "periods from 0 on", 0, repeats);
    time_boost(&workload, "the last periods of 32 bits", boost::LAST, repeats);
    time_meter(&workload, repeats);
}

/// A slot, and one port's choice.
fn time_slots(workload: &Workload, repeats: usize) {
    let size = format!("N = {}, T = {}", workload.ports, workload.frame);
    let [proved, by_value, in_place, less] = slot::slot_times(workload, repeats);
    report(&format!("slot, {size}, every line full, all queues busy"), [proved, by_value, in_place]);
    report_other("does less: in place, nothing checked, deadlines kept", less, proved);
    let [proved, by_value, in_place, ranked] = choice::choice_times(workload, repeats);
    report(&format!("choice, {size}"), [proved, by_value, in_place]);
    report_other("plain Rust, deadline and rate as one number", ranked, proved);
    if workload.frame == choice::TABLE_FRAME {
        report_other("plain Rust, the same with deadlines read", choice::read_time(workload, repeats), proved);
    }
}

fn time_boost(workload: &Workload, periods: &str, first: u32, repeats: usize) {
    let [proved, sums_kept, model] = boost::boost_times(workload, first, repeats);
    report_proved(&format!("boost, N = {}, T = {}, {periods}", workload.ports, workload.frame), proved);
    report_other("plain Rust, sums kept", sums_kept, proved);
    report_other("model, which adds up lines each time", model, proved);
}

/// A figure is for one slot of the record.
fn time_meter(workload: &Workload, repeats: usize) {
    let record = meter::longest_record(workload);
    for length in meter::LENGTHS {
        let [proved, one_pass, model] = meter::cover_times(&record, length, repeats);
        let (ports, frame, slots) = (workload.ports, workload.frame, record.len());
        report_proved(&format!("cover, for a slot of {slots}, N = {ports}, T = {frame}, l = {length}"), proved);
        report_other("plain Rust, one pass", one_pass, proved);
        report_other("model, services before each slot", model, proved);
    }
}

fn time_text(workload: &Workload, repeats: usize) {
    let text = text::longest_text(workload);
    let [proved, one_pass, model] = text::text_times(workload, &text, repeats);
    report_proved(&format!("text, N = {}, {} bytes", workload.ports, text.len()), proved);
    report_other("plain Rust, one pass", one_pass, proved);
    report_other("model, which splits the text", model, proved);
}
