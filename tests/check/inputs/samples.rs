//! Random inputs.

use super::{plan_file, Inputs};
use crate::check::plans;
use crate::check::same::same;
use crate::check::tally::TABLE_FRAME;
use crate::check::texts::{damage, PlanText, WRITINGS};
use crate::model::plan::{LONGEST_FRAME, MOST_PORTS};
use crate::model::Multiplexer;
use crate::operations::Operations;

impl<S: Operations> Inputs<'_, S> {
    fn random_shape(&mut self) -> (usize, u32) {
        let ports = self.random.within(1, 16);
        let longest = self.random.pick(&[4, 64, LONGEST_FRAME]);
        let any = self.random.within(1, longest as usize) as u32;
        (ports, if self.random.one_in(8) { TABLE_FRAME } else { any })
    }

    /// Accepted, or with a few rates changed.
    fn random_rates(&mut self, ports: usize, frame: u32) -> Vec<u16> {
        let mut rates = plans::accepted(self.random, ports, frame);
        for _ in 0..self.random.below(3) {
            let flow = self.random.below(ports * ports);
            let any = self.random.next() as u16;
            rates[flow] = self.random.pick(&[0, rates[flow].saturating_add(1), frame as u16, any]);
        }
        if self.random.one_in(20) {
            rates.pop();
        }
        rates
    }

    pub fn random_plan(&mut self) -> Result<(), String> {
        let (ports, frame) = self.random_shape();
        let rates = self.random_rates(ports, frame);
        self.accept(ports, frame, &rates)?;
        let out_length = ports * ports + usize::from(self.random.one_in(20));
        let period = self.random.period();
        self.boost(ports, frame, period, &rates, out_length)?;
        self.scale(ports, frame, &rates, out_length)?;
        let most = self.random.pick(&[1, 10, 1000, u16::MAX]);
        let demands = self.random.rates(ports * ports, most);
        self.scale(ports, frame, &demands, out_length)
    }

    pub fn random_desk_view(&mut self) -> Result<(), String> {
        let ports = self.random.within(1, 16);
        let running = self.random.rates(ports * ports, u16::MAX);
        let waiting = self.random.rates(ports * ports, u16::MAX);
        let input = self.random.below(ports);
        let takeover = if self.random.flip() { self.random.next() as u32 } else { 0 };
        let out_length = self.random.within(0, 20);
        self.desk_view(&running, &waiting, ports, input, takeover, out_length)
    }

    /// Small numbers make ties; any numbers make products of all sizes; in frames of 64 slots rates to 64 are read from a table.
    pub fn random_choice(&mut self) -> Result<(), String> {
        let most = self.random.pick(&[2, 6, 65, LONGEST_FRAME as u16, u16::MAX]);
        let length = self.random.within(0, 17);
        let rates = self.random.rates(length, most);
        let served: Vec<u16> = self.random.rates(MOST_PORTS, most);
        let multiplexer = Multiplexer { served: served.try_into().expect("16 counts") };
        let any = [TABLE_FRAME, self.random.frame(), self.random.next() as u32];
        let frame = self.random.pick(&any);
        let any = [self.random.below(65) as u32, self.random.frame() - 1, self.random.next() as u32];
        let slot = self.random.pick(&any);
        let choice = self.choose(&multiplexer, &rates, frame, slot)?;
        self.count(&multiplexer, choice)?;
        let ports = self.random.within(0, 17);
        self.end_frame(&multiplexer, ports)
    }

    /// Rates that are multiples of one, or equal, each served in its proportion: all deadlines are the same. In half of
    /// the lists one rate or count is then off by one.
    pub fn random_tie(&mut self) -> Result<(), String> {
        let most = self.random.pick(&[1, 3, 50, 8191]);
        let (unit, turn) = (self.random.within(1, most) as u16, self.random.within(1, most) as u16);
        let largest = self.random.pick(&[1, 2, 8]);
        let length = self.random.within(2, MOST_PORTS);
        let multiples: [u16; MOST_PORTS] = std::array::from_fn(|_| self.random.within(1, largest) as u16);
        let mut rates: Vec<u16> = multiples[..length].iter().map(|multiple| multiple * unit).collect();
        let mut multiplexer = Multiplexer { served: multiples.map(|multiple| multiple * turn - 1) };
        match self.random.below(4) {
            0 => rates[self.random.below(length)] += 1,
            1 => multiplexer.served[self.random.below(length)] += 1,
            _ => {}
        }
        let frame = if self.random.flip() { self.random.frame() } else { self.random.next() as u32 };
        let due = (u64::from(turn) * u64::from(frame)).div_ceil(u64::from(unit));
        let slot = self.random.pick(&[due.saturating_sub(1), due, u64::from(u32::MAX)]).min(u64::from(u32::MAX)) as u32;
        self.choose(&multiplexer, &rates, frame, slot)?;
        Ok(())
    }

    /// A port's whole frame, with the window rule for each service.
    pub fn random_frame(&mut self) -> Result<(), String> {
        let (ports, frame) = self.random_shape();
        let frame = frame.min(200);
        let list = plans::accepted(self.random, ports, frame);
        let input = self.random.below(ports);
        let rates = &list[input * ports..][..ports];
        let mut multiplexer = Multiplexer::ZERO;
        for slot in 0..frame {
            let choice = self.choose(&multiplexer, rates, frame, slot)?;
            multiplexer = self.count(&multiplexer, choice)?;
            if let Some(flow) = choice.flow() {
                let (rate, service) = (u32::from(rates[flow]), u32::from(multiplexer.served[flow]));
                let window = ((service - 1) * frame).div_ceil(rate)..(service * frame).div_ceil(rate);
                if !window.contains(&slot) {
                    return Err(format!("rates {rates:?} T {frame}: service {service} of flow {flow} in slot {slot}"));
                }
            }
        }
        same("services of a frame", &&multiplexer.served[..ports], &rates)?;
        self.tally.port_frames += u64::from(frame == TABLE_FRAME);
        self.end_frame(&multiplexer, ports)
    }

    pub fn random_start(&mut self) -> Result<(), String> {
        let (ports, frame) = self.random_shape();
        let rates = self.random_rates(ports, frame);
        let depth = self.random.within(0, 66);
        let store_length = ports * ports * depth + usize::from(self.random.one_in(10));
        self.start(ports, frame, &rates, depth, store_length)?;
        Ok(())
    }

    pub fn random_file(&mut self) -> Result<(), String> {
        let (ports, frame) = self.random_shape();
        let rates = self.random_rates(ports, frame);
        let mut file = plan_file(ports as u8, frame as u16, &rates);
        for _ in 0..self.random.below(3) {
            let place = self.random.below(file.len());
            file[place] = self.random.next() as u8;
        }
        self.read(&file)?;
        Ok(())
    }

    /// Whole, or damaged in up to three places.
    pub fn random_text(&mut self) -> Result<(), String> {
        let (ports, frame) = self.random_shape();
        let rates = self.random_rates(ports, frame);
        let writing = self.random.pick(&WRITINGS);
        let mut text = PlanText::new(self.random, writing, ports, frame, &rates).bytes();
        for _ in 0..self.random.below(4) {
            damage::anywhere(self.random, &mut text);
        }
        let out_length = ports * ports + usize::from(self.random.one_in(20));
        self.read_text(ports, frame, &text, out_length)?;
        Ok(())
    }
}
