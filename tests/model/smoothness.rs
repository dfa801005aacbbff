//! What the program `smoothness` prints for a plan file.

use super::meter::{cover, IDLE_SLOT};
use super::multiplexer::Multiplexer;
use super::plan::Plan;
use super::planfile;

/// Each head is measured over so many frames.
const FRAMES: usize = 3;

pub fn smoothness(bytes: &[u8]) -> String {
    match planfile::read(bytes) {
        Err(refusal) => format!("refused {}\n", refusal as u8),
        Ok(plan) => services(&plan),
    }
}

/// A header, then for each flow that has a rate, head by head, a line for each length.
fn services(plan: &Plan) -> String {
    let mut text = "out in rate slots least promised most promised\n".to_string();
    for output in 0..plan.ports {
        let record = record(plan, output);
        for input in (0..plan.ports).filter(|&input| plan.rate(input, output) > 0) {
            for length in lengths(plan.frame as usize) {
                text += &line(plan, &record, output, input, length);
            }
        }
    }
    text
}

/// What a head chooses, slot by slot.
fn record(plan: &Plan, output: usize) -> Vec<u16> {
    let column = plan.column(output);
    let mut frame = Vec::new();
    let mut head = Multiplexer::ZERO;
    for slot in 0..plan.frame {
        let choice = head.choose(&column[..plan.ports], plan.frame, slot);
        head.count(choice);
        frame.push(choice.map_or(IDLE_SLOT, |input| input as u16));
    }
    frame.repeat(FRAMES)
}

/// One slot, and a quarter, a half and the whole of a frame, each length once.
fn lengths(frame: usize) -> Vec<usize> {
    let mut lengths = vec![1, frame / 4, frame / 2, frame];
    lengths.retain(|&length| length > 0);
    lengths.dedup();
    lengths
}

fn line(plan: &Plan, record: &[u16], output: usize, input: usize, length: usize) -> String {
    let (rate, frame) = (usize::from(plan.rate(input, output)), plan.frame as usize);
    let found = cover(record, input as u16, length).expect("three frames have slots enough");
    let (least, most) = (found.least.services, found.most.services);
    let promised_least = ((length + 1) * rate / frame).saturating_sub(1);
    let promised_most = ((length - 1) * rate).div_ceil(frame) + 1;
    format!("{output} {input} {rate} {length} {least} {promised_least} {most} {promised_most}\n")
}
