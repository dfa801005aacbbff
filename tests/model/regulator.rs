//! The regulator: demands scaled to a plan, a plan boosted until every line is full.

use super::plan::{check_length, check_shape, check_sums, column_sum, row_sum};
use super::refusal::Refusal;

/// Each rate is its demand's share of the frame in the fuller one of its two lines, rounded down.
pub fn scale(ports: usize, frame: u32, demands: &[u16], rates: &mut [u16]) -> Result<(), Refusal> {
    check_shape(ports, frame)?;
    check_length(ports, demands)?;
    check_length(ports, rates)?;
    for input in 0..ports {
        for output in 0..ports {
            let demand = demands[input * ports + output];
            rates[input * ports + output] = if demand == 0 {
                0
            } else {
                let fuller = row_sum(ports, demands, input).max(column_sum(ports, demands, output));
                (u64::from(demand) * u64::from(frame) / u64::from(fuller)) as u16
            };
        }
    }
    Ok(())
}

/// Goes once round the diagonals, from the one that the period names on; each flow on one takes what both its lines
/// still have to spare.
pub fn boost(ports: usize, frame: u32, period: u32, given: &[u16], rates: &mut [u16]) -> Result<(), Refusal> {
    check_shape(ports, frame)?;
    check_length(ports, given)?;
    check_length(ports, rates)?;
    check_sums(ports, frame, given)?;
    rates.copy_from_slice(given);
    let first = period as usize % ports;
    for diagonal in (first..ports).chain(0..first) {
        for input in 0..ports {
            let output = (input + diagonal) % ports;
            let fuller = row_sum(ports, rates, input).max(column_sum(ports, rates, output));
            rates[input * ports + output] += (frame - fuller) as u16;
        }
    }
    Ok(())
}
