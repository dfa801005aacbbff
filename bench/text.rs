//! What reading a plan's text costs: the proved library, a reader in plain Rust that goes through the bytes once, as the
//! library does, and the model, which splits the text.

use crate::clock::{batches, best_of, time, BATCH};
use crate::ffi::Library;
use crate::model::plan::{check_shape, check_sums, MOST_FLOWS};
use crate::operations::{Model, Operations};
use crate::workload::Workload;
use std::hint::black_box;

const READINGS: usize = 1024;

/// The plan's text at its longest: five digits in quotes, and CR LF behind the last record.
pub fn longest_text(workload: &Workload) -> Vec<u8> {
    let record = |row: &[u16]| row.iter().map(|rate| format!("\"{rate:05}\"")).collect::<Vec<String>>().join(",");
    let records = workload.rates.chunks(workload.ports).map(|row| record(row) + "\r\n");
    records.collect::<String>().into_bytes()
}

/// Proved, one pass in plain Rust, model.
pub fn text_times(workload: &Workload, text: &[u8], repeats: usize) -> [f64; 3] {
    let readers: [fn(usize, u32, &[u8], &mut [u16]) -> bool; 3] = [proved, one_pass, model];
    let mut lists = [0, 1, 2].map(|_| vec![0; workload.flows()]);
    best_of(repeats, &batches(READINGS, BATCH), |batch| {
        let times = [0, 1, 2].map(|reader| {
            let list = &mut lists[reader];
            list.fill(0);
            time(|| {
                for _ in batch.clone() {
                    assert!(readers[reader](workload.ports, workload.frame, black_box(text), black_box(list)));
                }
            })
        });
        assert!(lists.iter().all(|list| *list == workload.rates), "a reader differs");
        times
    })
}

fn proved(ports: usize, frame: u32, text: &[u8], rates: &mut [u16]) -> bool {
    Library::read_text(ports, frame, text, rates) == 0
}

fn model(ports: usize, frame: u32, text: &[u8], rates: &mut [u16]) -> bool {
    Model::read_text(ports, frame, text, rates) == 0
}

#[inline(never)]
fn one_pass(ports: usize, frame: u32, text: &[u8], rates: &mut [u16]) -> bool {
    if check_shape(ports, frame).is_err() || rates.len() != ports * ports {
        return false;
    }
    let mut values = [0; MOST_FLOWS];
    let values = &mut values[..ports * ports];
    if read_values(ports, text, values).is_none() || check_sums(ports, frame, values).is_err() {
        return false;
    }
    rates.copy_from_slice(values);
    true
}

fn read_values(ports: usize, text: &[u8], values: &mut [u16]) -> Option<()> {
    let mut at = 0;
    for (row, values) in values.chunks_exact_mut(ports).enumerate() {
        if row > 0 {
            at = line_end(text, at)?;
        }
        for (column, value) in values.iter_mut().enumerate() {
            if column > 0 {
                at = mark(text, at, b',')?;
            }
            (*value, at) = field(text, at)?;
        }
    }
    (at == text.len() || line_end(text, at) == Some(text.len())).then_some(())
}

fn mark(text: &[u8], at: usize, mark: u8) -> Option<usize> {
    (text.get(at) == Some(&mark)).then_some(at + 1)
}

fn line_end(text: &[u8], at: usize) -> Option<usize> {
    mark(text, mark(text, at, b'\r')?, b'\n')
}

fn field(text: &[u8], at: usize) -> Option<(u16, usize)> {
    match mark(text, at, b'"') {
        None => number(text, at),
        Some(inside) => {
            let (value, end) = number(text, inside)?;
            Some((value, mark(text, end, b'"')?))
        }
    }
}

fn number(text: &[u8], at: usize) -> Option<(u16, usize)> {
    let (mut value, mut end) = (0, at);
    while end < text.len().min(at + 5) && text[end].is_ascii_digit() {
        value = value * 10 + u32::from(text[end] - b'0');
        end += 1;
    }
    Some((u16::try_from(value).ok().filter(|_| end > at)?, end))
}
