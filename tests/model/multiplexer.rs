//! The multiplexer of one port.

use super::plan::MOST_PORTS;
use std::cmp::Reverse;

/// How often each flow was served in this frame.
#[derive(Clone, Copy, Debug, PartialEq, Eq)]
#[repr(C)]
pub struct Multiplexer {
    pub served: [u16; MOST_PORTS],
}

impl Multiplexer {
    pub const ZERO: Multiplexer = Multiplexer { served: [0; MOST_PORTS] };

    /// The eligible flow with the smallest deadline, of several the one with the largest rate, of several the lowest; none:
    /// the port idles.
    pub fn choose(&self, rates: &[u16], frame: u32, slot: u32) -> Option<usize> {
        let (frame, slot) = (u64::from(frame), u64::from(slot));
        let mut best: Option<(u64, Reverse<u64>, usize)> = None;
        for (flow, (&rate, &served)) in rates.iter().zip(&self.served).enumerate() {
            let (rate, served) = (u64::from(rate), u64::from(served));
            if rate == 0 || served * frame > slot * rate {
                continue;
            }
            let deadline = ((served + 1) * frame).div_ceil(rate);
            let place = (deadline, Reverse(rate), flow);
            if best.map_or(true, |first| place < first) {
                best = Some(place);
            }
        }
        best.map(|(_, _, flow)| flow)
    }

    pub fn count(&mut self, choice: Option<usize>) {
        if let Some(served) = choice.and_then(|flow| self.served.get_mut(flow)) {
            *served = served.saturating_add(1);
        }
    }

    pub fn end_frame(&mut self, ports: usize) {
        self.served[..ports.min(MOST_PORTS)].fill(0);
    }
}
