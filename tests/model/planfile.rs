//! The plan file.

use super::plan::{check_shape, check_sums, Plan};
use super::refusal::{refuse_if, Refusal};

/// Mark, version, N and T.
pub const HEADER_BYTES: usize = 8;

pub fn read(bytes: &[u8]) -> Result<Plan, Refusal> {
    refuse_if(bytes.len() < HEADER_BYTES, Refusal::FileLength)?;
    let number_at = |place: usize| u16::from_le_bytes([bytes[place], bytes[place + 1]]);
    refuse_if(&bytes[..3] != b"LSP" || number_at(3) != 1, Refusal::MarkOrVersion)?;
    let ports = usize::from(bytes[5]);
    let frame = u32::from(number_at(6));
    check_shape(ports, frame)?;
    refuse_if(bytes.len() != HEADER_BYTES + 2 * ports * ports, Refusal::FileLength)?;
    let mut plan = Plan { ports, frame, ..Plan::ZERO };
    for flow in 0..ports * ports {
        plan.rates[flow] = number_at(HEADER_BYTES + 2 * flow);
    }
    check_sums(ports, frame, plan.used_rates())?;
    Ok(plan)
}
