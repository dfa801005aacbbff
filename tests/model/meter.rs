//! The smoothness meter: the least and the most services of a flow in any so many consecutive slots of a record.

use super::refusal::{refuse_if, Refusal};
use std::cmp::Reverse;

pub const LONGEST_RECORD: usize = 65_535;
/// Stands in a record for a slot in which nobody was served.
pub const IDLE_SLOT: u16 = 65_535;

/// The services in a stretch of slots, and the number of its first slot.
#[derive(Clone, Copy, Debug, PartialEq, Eq)]
#[repr(C)]
pub struct Stretch {
    pub services: usize,
    pub place: usize,
}

#[derive(Clone, Copy, Debug, PartialEq, Eq)]
pub struct Cover {
    pub least: Stretch,
    pub most: Stretch,
}

impl Cover {
    pub const ZERO: Cover = Cover { least: Stretch { services: 0, place: 0 }, most: Stretch { services: 0, place: 0 } };
}

/// Looks at the stretch from every place; of equal ones the first counts.
pub fn cover(record: &[u16], flow: u16, length: usize) -> Result<Cover, Refusal> {
    refuse_if(length > record.len() || record.len() > LONGEST_RECORD, Refusal::RecordLength)?;
    let before = services_before(record, flow);
    let stretch = |place: usize| Stretch { services: before[place + length] - before[place], place };
    let places = 0..=record.len() - length;
    let least = places.clone().map(stretch).min_by_key(|found| (found.services, found.place));
    let most = places.map(stretch).max_by_key(|found| (found.services, Reverse(found.place)));
    Ok(Cover { least: least.expect("there is place 0"), most: most.expect("there is place 0") })
}

/// How often the flow was served before each slot, and at last in the whole record.
fn services_before(record: &[u16], flow: u16) -> Vec<usize> {
    let mut before = vec![0];
    for (slot, &served) in record.iter().enumerate() {
        before.push(before[slot] + usize::from(served == flow));
    }
    before
}
