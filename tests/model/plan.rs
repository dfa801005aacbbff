//! Plans: acceptance and the desk view.

use super::refusal::{refuse_if, Refusal};

pub const MOST_PORTS: usize = 16;
pub const MOST_FLOWS: usize = MOST_PORTS * MOST_PORTS;
pub const LONGEST_FRAME: u32 = 1024;

/// The rates stand row by row, one row an input; only the first `ports` × `ports` count.
#[derive(Clone, Copy, Debug, PartialEq, Eq)]
#[repr(C)]
pub struct Plan {
    pub ports: usize,
    pub frame: u32,
    pub rates: [u16; MOST_FLOWS],
}

impl Plan {
    pub const ZERO: Plan = Plan { ports: 0, frame: 0, rates: [0; MOST_FLOWS] };

    /// Takes over shape and rates; what stands behind the rates stays.
    pub fn set(&mut self, ports: usize, frame: u32, rates: &[u16]) {
        self.ports = ports;
        self.frame = frame;
        self.rates[..rates.len()].copy_from_slice(rates);
    }

    /// Shape and rates become 0; what stands behind the rates stays.
    pub fn clear(&mut self) {
        let flows = self.ports * self.ports;
        self.rates[..flows].fill(0);
        self.ports = 0;
        self.frame = 0;
    }

    /// The rates that count, for a plan whose number of ports is in range.
    pub fn used_rates(&self) -> &[u16] {
        &self.rates[..self.ports * self.ports]
    }

    pub fn rate(&self, input: usize, output: usize) -> u16 {
        self.rates[input * self.ports + output]
    }

    /// One input's rates.
    pub fn row(&self, input: usize) -> &[u16] {
        &self.rates[input * self.ports..][..self.ports]
    }

    /// One output's rates, in the first places.
    pub fn column(&self, output: usize) -> [u16; MOST_PORTS] {
        let mut column = [0; MOST_PORTS];
        for input in 0..self.ports {
            column[input] = self.rate(input, output);
        }
        column
    }

    pub fn is_accepted(&self) -> bool {
        check_shape(self.ports, self.frame).is_ok() && check_sums(self.ports, self.frame, self.used_rates()).is_ok()
    }
}

pub fn ports_in_range(ports: usize) -> bool {
    (1..=MOST_PORTS).contains(&ports)
}

/// Numbers 1 and 2.
pub fn check_shape(ports: usize, frame: u32) -> Result<(), Refusal> {
    refuse_if(!ports_in_range(ports), Refusal::PortsOutOfRange)?;
    refuse_if(!(1..=LONGEST_FRAME).contains(&frame), Refusal::FrameOutOfRange)
}

/// Number 3, for a number of ports in range.
pub fn check_length(ports: usize, list: &[u16]) -> Result<(), Refusal> {
    refuse_if(list.len() != ports * ports, Refusal::ListLength)
}

/// Numbers 4 and 5: all rows before all columns.
pub fn check_sums(ports: usize, frame: u32, rates: &[u16]) -> Result<(), Refusal> {
    for input in 0..ports {
        refuse_if(row_sum(ports, rates, input) > frame, Refusal::RowAboveFrame)?;
    }
    for output in 0..ports {
        refuse_if(column_sum(ports, rates, output) > frame, Refusal::ColumnAboveFrame)?;
    }
    Ok(())
}

pub fn row_sum(ports: usize, list: &[u16], input: usize) -> u32 {
    list[input * ports..][..ports].iter().map(|&rate| u32::from(rate)).sum()
}

pub fn column_sum(ports: usize, list: &[u16], output: usize) -> u32 {
    list[output..].iter().step_by(ports).map(|&rate| u32::from(rate)).sum()
}

pub fn accept(ports: usize, frame: u32, rates: &[u16]) -> Result<(), Refusal> {
    check_shape(ports, frame)?;
    check_length(ports, rates)?;
    check_sums(ports, frame, rates)
}

/// The row of `input` in the list that rules the coming slot, or the empty part.
pub fn desk_view<'a>(running: &'a [u16], waiting: &'a [u16], ports: usize, input: usize, takeover: bool) -> &'a [u16] {
    if !ports_in_range(ports)
        || input >= ports
        || check_length(ports, running).is_err()
        || check_length(ports, waiting).is_err()
    {
        return &[];
    }
    let ruling = if takeover { waiting } else { running };
    &ruling[input * ports..][..ports]
}
