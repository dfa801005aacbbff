//! The plan's rates as comma-separated text.

use super::plan::{check_length, check_shape, check_sums};
use super::refusal::Refusal;
use std::str::from_utf8;

const MOST_DIGITS: usize = 5;

pub fn read(ports: usize, frame: u32, text: &[u8], rates: &mut [u16]) -> Result<(), Refusal> {
    check_shape(ports, frame)?;
    check_length(ports, rates)?;
    let values = values(ports, text).ok_or(Refusal::NotPlanText)?;
    check_sums(ports, frame, &values)?;
    rates.copy_from_slice(&values);
    Ok(())
}

/// Commas and line ends part fields wherever they stand: a field that held one in its quotes would be no number.
fn values(ports: usize, text: &[u8]) -> Option<Vec<u16>> {
    let text = from_utf8(text).ok()?;
    let records = text.strip_suffix("\r\n").unwrap_or(text).split("\r\n");
    let fields: Vec<Vec<&str>> = records.map(|record| record.split(',').collect()).collect();
    if fields.len() != ports || fields.iter().any(|record| record.len() != ports) {
        return None;
    }
    fields.concat().into_iter().map(value).collect()
}

fn value(field: &str) -> Option<u16> {
    let quoted = field.strip_prefix('"').and_then(|rest| rest.strip_suffix('"'));
    let digits = quoted.unwrap_or(field);
    if !(1..=MOST_DIGITS).contains(&digits.len()) || !digits.bytes().all(|byte| byte.is_ascii_digit()) {
        return None;
    }
    digits.parse().ok() // none above 65,535
}
