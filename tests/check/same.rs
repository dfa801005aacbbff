//! Equality of what the subject and the model hand back; a difference is told in words.

use super::guarded::Guarded;
use crate::model::plan::MOST_PORTS;
use crate::model::{Crosspoint, Multiplexer, Port, Switch};
use crate::operations::PortReply;
use std::fmt::Debug;

pub fn same_verdict(subject: u32, model: u32) -> Result<(), String> {
    same("verdict", &subject, &model)
}

pub fn same_ports(side: &str, subject: &[PortReply; MOST_PORTS], model: &[Port; MOST_PORTS]) -> Result<(), String> {
    for port in 0..MOST_PORTS {
        let expected = PortReply::from(model[port]);
        if subject[port] != expected {
            return Err(difference(&format!("{side} {port}"), &subject[port], &expected));
        }
    }
    Ok(())
}

/// A lent list, what stands before and behind it included.
pub fn same_list<T>(subject: &Guarded<T>, model: &Guarded<T>) -> Result<(), String>
where
    T: Copy + PartialEq + Debug,
{
    match subject.first_difference(model) {
        None => Ok(()),
        Some((place, was, expected)) => Err(difference(&format!("lent list, place {place}"), &was, &expected)),
    }
}

/// Every field, also what stands in the places for ports from N up.
pub fn same_state(subject: &Switch, model: &Switch) -> Result<(), String> {
    let all_same = subject.running == model.running
        && subject.waiting == model.waiting
        && (subject.waits, subject.depth, subject.slot) == (model.waits, model.depth, model.slot)
        && queue_difference(subject, model) == 0
        && crosspoint_difference(subject, model) == 0
        && service_difference(&subject.boards, &model.boards) == 0
        && service_difference(&subject.heads, &model.heads) == 0;
    if all_same {
        Ok(())
    } else {
        Err(first_difference(subject, model))
    }
}

pub fn same<T: PartialEq + Debug>(name: &str, subject: &T, model: &T) -> Result<(), String> {
    if subject == model {
        Ok(())
    } else {
        Err(difference(name, subject, model))
    }
}

/// A list as it is told in a difference.
pub fn told<T: Debug>(list: &[T]) -> String {
    if list.len() <= 289 {
        format!("{list:?}")
    } else {
        format!("{:?} and so on, {} in all", &list[..8], list.len())
    }
}

/// A text as it is told in a difference.
pub fn told_text(text: &[u8]) -> String {
    let shown = text.len().min(2_100);
    format!("\"{}\" of {} bytes", text[..shown].escape_ascii(), text.len())
}

fn difference(name: &str, subject: &impl Debug, model: &impl Debug) -> String {
    format!("{name}: library {subject:?}, model {model:?}")
}

// All differing bits together: without a branch in the loop it takes a fraction of the time.

fn queue_difference(subject: &Switch, model: &Switch) -> u8 {
    let pairs = subject.queues.iter().zip(&model.queues);
    pairs.fold(0, |bits, (was, expected)| bits | (was.place ^ expected.place) | (was.count ^ expected.count))
}

fn crosspoint_difference(subject: &Switch, model: &Switch) -> u64 {
    let cells = |crosspoint: &Crosspoint| u64::from(crosspoint.cells[1]) << 32 | u64::from(crosspoint.cells[0]);
    let pairs = subject.crosspoints.iter().zip(&model.crosspoints);
    pairs.fold(0, |bits, (was, expected)| bits | (cells(was) ^ cells(expected)) | u64::from(was.count ^ expected.count))
}

fn service_difference(subject: &[Multiplexer; MOST_PORTS], model: &[Multiplexer; MOST_PORTS]) -> u16 {
    let mut bits = 0;
    for (was, expected) in subject.iter().zip(model) {
        for flow in 0..MOST_PORTS {
            bits |= was.served[flow] ^ expected.served[flow];
        }
    }
    bits
}

fn first_difference(subject: &Switch, model: &Switch) -> String {
    fn list<T: PartialEq + Debug>(name: &str, subject: &[T], model: &[T]) -> Result<(), String> {
        (0..model.len()).try_for_each(|place| same(&format!("{name}[{place}]"), &subject[place], &model[place]))
    }
    same("running N", &subject.running.ports, &model.running.ports)
        .and_then(|()| same("running T", &subject.running.frame, &model.running.frame))
        .and_then(|()| list("running rates", &subject.running.rates, &model.running.rates))
        .and_then(|()| same("waiting N", &subject.waiting.ports, &model.waiting.ports))
        .and_then(|()| same("waiting T", &subject.waiting.frame, &model.waiting.frame))
        .and_then(|()| list("waiting rates", &subject.waiting.rates, &model.waiting.rates))
        .and_then(|()| same("waits", &subject.waits, &model.waits))
        .and_then(|()| same("Q", &subject.depth, &model.depth))
        .and_then(|()| same("slot", &subject.slot, &model.slot))
        .and_then(|()| list("queues", &subject.queues, &model.queues))
        .and_then(|()| list("crosspoints", &subject.crosspoints, &model.crosspoints))
        .and_then(|()| list("boards", &subject.boards, &model.boards))
        .and_then(|()| list("heads", &subject.heads, &model.heads))
        .expect_err("the states differ")
}
