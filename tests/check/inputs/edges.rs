//! Inputs at the edges of what can be handed over.

use super::{plan_file, Inputs};
use crate::check::calls;
use crate::check::guarded::Guarded;
use crate::check::plans;
use crate::check::same::same;
use crate::check::tally::TABLE_FRAME;
use crate::check::texts::{PlanText, WRITINGS};
use crate::model::plan::{LONGEST_FRAME, MOST_PORTS};
use crate::model::{Multiplexer, Switch};
use crate::operations::{Choice, Model, Operations};

/// 2^32 and its like have squares that agree with a short length modulo 2^64.
const PORTS: [usize; 13] = [0, 1, 2, 3, 4, 15, 16, 17, 255, 256, 1 << 32, (1 << 32) + 1, usize::MAX];
/// 4,096 was the longest frame before request L8.
const FRAMES: [u32; 11] = [0, 1, 2, 3, 64, LONGEST_FRAME - 1, LONGEST_FRAME, LONGEST_FRAME + 1, 4096, 65_536, u32::MAX];
const SLOTS: [u32; 7] = [0, 1, 2, LONGEST_FRAME - 1, LONGEST_FRAME, 65_535, u32::MAX];
const LENGTHS: [usize; 9] = [0, 1, 4, 16, 255, 256, 257, 289, 65_536];
const DEPTHS: [usize; 9] = [0, 1, 2, 63, 64, 65, 256, 1 << 32, usize::MAX];
const COUNTS: [u16; 6] = [0, 1, 2, LONGEST_FRAME as u16 - 1, LONGEST_FRAME as u16, u16::MAX];

/// What C can hand over for a yes or no: every byte, and numbers whose low bytes are 0.
fn flags() -> impl Iterator<Item = u32> {
    (0..256).chain([256, 65_536, 1 << 31, u32::MAX])
}

impl<S: Operations> Inputs<'_, S> {
    /// Lists with which N and T are tried: of all lengths, and of the right one with all kinds of sums.
    fn edge_lists(&mut self, ports: usize, frame: u32) -> Vec<Vec<u16>> {
        let mut lists: Vec<Vec<u16>> = Vec::new();
        for length in LENGTHS {
            lists.push(vec![0; length]);
            lists.push(vec![u16::MAX; length]);
        }
        if !(1..=MOST_PORTS).contains(&ports) {
            return lists;
        }
        let flows = ports * ports;
        let frame = frame.min(LONGEST_FRAME) as u16;
        let row_and_column = |rate: u16| {
            let line = |flow: usize| if flow < ports || flow % ports == 0 { rate } else { 0 };
            (0..flows).map(line).collect::<Vec<u16>>()
        };
        let row = |rate: u16| (0..flows).map(|flow| if flow < ports { rate } else { 0 }).collect();
        let column = |rate: u16| (0..flows).map(|flow| if flow % ports == 0 { rate } else { 0 }).collect();
        lists.push(vec![0; flows]);
        lists.push(vec![u16::MAX; flows]);
        lists.push(vec![frame; flows]);
        for rate in [frame / ports as u16, frame / ports as u16 + 1, frame, u16::MAX] {
            lists.push(row_and_column(rate));
            lists.push(row(rate));
            lists.push(column(rate));
        }
        // Only the last row, and only the last column, is one above T.
        for (first, last) in [(flows - ports, flows - 1), (ports - 1, flows - 1)] {
            let mut list = vec![0; flows];
            list[first] = frame;
            list[last] += 1;
            lists.push(list);
        }
        if frame > 0 {
            lists.push(plans::accepted(self.random, ports, u32::from(frame)));
            let accepted = plans::accepted(self.random, ports, u32::from(frame));
            lists.push(plans::boosted(ports, u32::from(frame), self.random.period(), &accepted));
            lists.push(accepted[1..].to_vec());
            lists.push([&accepted[..], &[0]].concat());
        }
        lists
    }

    pub fn plan_edges(&mut self) -> Result<(), String> {
        for ports in PORTS {
            for frame in FRAMES {
                for list in self.edge_lists(ports, frame) {
                    self.accept(ports, frame, &list)?;
                    for out_length in [list.len(), list.len() + 1, list.len().saturating_sub(1), 0] {
                        self.scale(ports, frame, &list, out_length)?;
                        let period = self.random.period();
                        self.boost(ports, frame, period, &list, out_length)?;
                    }
                }
            }
        }
        Ok(())
    }

    /// Every order of the diagonals, by periods from both ends of the 32 bits and around 2^16 and 2^31.
    pub fn period_edges(&mut self) -> Result<(), String> {
        for ports in 1..=MOST_PORTS {
            for middle in [0, 1 << 16, 1 << 31, u32::MAX] {
                for period in middle.saturating_sub(20)..=middle.saturating_add(20) {
                    let frame = self.random.pick(&[1, 6, 64, LONGEST_FRAME]);
                    let plan = plans::scaled(self.random, ports, frame);
                    self.boost(ports, frame, period, &plan, plan.len())?;
                }
            }
        }
        Ok(())
    }

    /// A plan of no services shows which diagonal is first: its flows get the whole frame. In any N periods that follow
    /// one another, the last of 32 bits among them, it is another one each time.
    pub fn fair_start(&mut self) -> Result<(), String> {
        for ports in 1..=MOST_PORTS {
            for begin in [0, 1, self.random.next() as u32 >> 1, u32::MAX - (ports as u32 - 1)] {
                let mut firsts: Vec<usize> = Vec::new();
                for turn in 0..ports as u32 {
                    let mut rates = vec![0; ports * ports];
                    S::boost(ports, 5, begin + turn, &vec![0; ports * ports], &mut rates);
                    self.tally.inputs += 1;
                    firsts.extend(rates[..ports].iter().position(|&rate| rate == 5));
                }
                firsts.sort();
                same("which diagonals are first", &firsts, &(0..ports).collect())
                    .map_err(|what| format!("boost N {ports} from period {begin} on: {what}"))?;
            }
        }
        Ok(())
    }

    pub fn desk_view_edges(&mut self) -> Result<(), String> {
        for ports in PORTS {
            let right = if ports <= 256 { ports * ports } else { 0 };
            for (running_length, waiting_length) in
                [(right, right), (right + 1, right), (right, right + 1), (0, right), (right, 0), (1, 1), (256, 257)]
            {
                let running = self.random.rates(running_length, u16::MAX);
                let waiting = self.random.rates(waiting_length, u16::MAX);
                for input in [0, 1, ports.wrapping_sub(1), ports, ports.wrapping_add(1), 1 << 32, usize::MAX] {
                    for out_length in [0, 1, MOST_PORTS - 1, MOST_PORTS, 256] {
                        self.desk_view(&running, &waiting, ports, input, 0, out_length)?;
                        self.desk_view(&running, &waiting, ports, input, 1, out_length)?;
                    }
                }
            }
        }
        for takeover in flags() {
            self.desk_view(&[1, 2, 3, 4], &[5, 6, 7, 8], 2, 1, takeover, 2)?;
        }
        Ok(())
    }

    pub fn multiplexer_edges(&mut self) -> Result<(), String> {
        for length in [0, 1, 2, 15, 16, 17, 255, 256, 257, 65_536] {
            for rate in COUNTS {
                for served in COUNTS {
                    let mut rates = vec![rate; length];
                    let mut multiplexer = Multiplexer { served: [served; MOST_PORTS] };
                    if length > 1 && self.random.flip() {
                        rates[self.random.below(length.min(20))] = self.random.pick(&COUNTS);
                        multiplexer.served[self.random.below(MOST_PORTS)] = self.random.pick(&COUNTS);
                    }
                    for frame in FRAMES {
                        for slot in SLOTS {
                            self.choose(&multiplexer, &rates, frame, slot)?;
                        }
                    }
                }
            }
        }
        for served in COUNTS {
            let mut multiplexer = Multiplexer { served: [served; MOST_PORTS] };
            multiplexer.served[self.random.below(MOST_PORTS)] = self.random.next() as u16;
            self.count(&multiplexer, Choice { kind: 0, flow: 0 })?;
            for flow in (0..20).chain([255, 256, 65_535, 65_536, 1 << 32, usize::MAX]) {
                self.count(&multiplexer, Choice { kind: 1, flow })?;
            }
            for kind in flags() {
                self.count(&multiplexer, Choice { kind, flow: 3 })?;
            }
            for ports in (0..20).chain(PORTS) {
                self.end_frame(&multiplexer, ports)?;
            }
        }
        Ok(())
    }

    /// The deadlines that the library reads from a table, and those next to it that it divides for: in the last slot of a frame
    /// each service to come is held to a flow of rate T, which has every slot for a deadline.
    pub fn table_edges(&mut self) -> Result<(), String> {
        for frame in [TABLE_FRAME - 1, TABLE_FRAME, TABLE_FRAME + 1] {
            for rate in (0..=66).chain([u16::MAX]) {
                for served in (0..=rate.min(66) + 1).chain([u16::MAX]) {
                    let mut multiplexer = Multiplexer { served: [served; MOST_PORTS] };
                    for slot in [0, 31, 62, 63, 64, 65, u32::MAX] {
                        for rival in 0..=frame as u16 {
                            multiplexer.served[0] = rival;
                            self.choose(&multiplexer, &[frame as u16, rate], frame, slot)?;
                        }
                    }
                }
            }
        }
        Ok(())
    }

    /// Each deadline of a frame of 64 slots, found out by choices alone: in the last slot a rival of rate 64 has every slot for a
    /// deadline, and goes before the flow as long as its own is not later. Held to the rule without a division.
    pub fn table_entries(&mut self) -> Result<(), String> {
        const FRAME: u16 = TABLE_FRAME as u16;
        for rate in 1..=FRAME {
            for served in 0..rate {
                let mut multiplexer = Multiplexer::ZERO;
                multiplexer.served[1] = served;
                let mut deadline = 0;
                while deadline < FRAME {
                    multiplexer.served[0] = deadline;
                    let choice = self.choose(&multiplexer, &[FRAME, rate], TABLE_FRAME, TABLE_FRAME - 1)?;
                    if choice.flow() == Some(1) {
                        break;
                    }
                    deadline += 1;
                }
                let (due, late) = (deadline * rate, (deadline - 1) * rate);
                same("deadline by the rule", &(late < (served + 1) * FRAME && (served + 1) * FRAME <= due), &true)
                    .map_err(|what| format!("rate {rate}, {served} served, deadline {deadline}: {what}"))?;
                self.tally.entries += 1;
            }
        }
        Ok(())
    }

    pub fn start_edges(&mut self) -> Result<(), String> {
        for ports in PORTS {
            for frame in FRAMES {
                for list in self.edge_lists(ports, frame) {
                    let depth = self.random.pick(&DEPTHS);
                    let right = list.len().min(256) * depth.min(64);
                    let store_length = self.random.pick(&[right, right, right + 1, 0, 65_536]);
                    self.start(ports, frame, &list, depth, store_length)?;
                }
            }
        }
        for ports in [1, 2, 3, 16] {
            let rates = plans::accepted(self.random, ports, 64);
            for depth in DEPTHS {
                let right = ports * ports * depth.min(65);
                for store_length in [right, right + 1, right.saturating_sub(1), 0, 1, 255, 256, 257, 65_536] {
                    self.start(ports, 64, &rates, depth, store_length)?;
                }
            }
        }
        Ok(())
    }

    /// Arrival, load and step on fresh states and on the state that is all 0.
    pub fn switch_edges(&mut self) -> Result<(), String> {
        for (ports, frame, depth) in [(0, 0, 0), (1, 1, 1), (2, 6, 3), (16, LONGEST_FRAME, 64)] {
            let mut state = Switch::ZERO;
            if ports > 0 {
                let rates = plans::accepted(self.random, ports, frame);
                state = Model::start(ports, frame, &rates, depth, &vec![0; ports * ports * depth]).state;
            }
            let right = ports * ports * depth;
            for store_length in LENGTHS.into_iter().chain([right, right + 1, right.saturating_sub(1)]) {
                let store = Guarded::cells(self.random, store_length);
                self.call(calls::step::<S>(&state, store.clone()))?;
                for port in [0, ports.wrapping_sub(1), ports, 16, 17, 1 << 32, usize::MAX] {
                    let cell = self.random.cell();
                    for (input, output) in [(port, 0), (0, port), (port, port)] {
                        self.call(calls::arrive::<S>(&state, store.clone(), input, output, cell))?;
                    }
                }
            }
            for other_ports in PORTS {
                for other_frame in FRAMES.into_iter().chain([6]) {
                    for list in self.edge_lists(other_ports, other_frame) {
                        self.call(calls::load::<S>(&state, other_ports, other_frame, &list))?;
                    }
                }
            }
        }
        Ok(())
    }

    /// Files damaged in each byte, cut short and drawn out.
    pub fn file_edges(&mut self) -> Result<(), String> {
        for length in 0..=8 {
            self.read(&b"LSP\x01\0\0\x01\0"[..length])?;
        }
        for ports in 0..=18 {
            for frame in [0, 1, 6, LONGEST_FRAME, LONGEST_FRAME + 1, 4096, 65_535] {
                let rates = match (ports, frame) {
                    (1..=16, 1..=LONGEST_FRAME) => plans::accepted(self.random, ports, frame),
                    _ => vec![0; ports * ports],
                };
                let file = plan_file(ports as u8, frame as u16, &rates);
                self.read(&file)?;
                self.read(&file[..file.len() - 1])?;
                self.read(&[&file[..], &[0]].concat())?;
                self.read(&[&file[..], &file[..]].concat())?;
                for place in 0..file.len() {
                    let mut damaged = file.clone();
                    for mask in [0xFF, 0x01, 0x80, 1 << self.random.below(8)] {
                        damaged[place] = file[place] ^ mask;
                        self.read(&damaged)?;
                    }
                }
            }
        }
        for length in LENGTHS {
            self.read(&vec![0; length])?;
            self.read(&vec![0xFF; length])?;
            let mut file = plan_file(16, LONGEST_FRAME as u16, &vec![0; length / 2]);
            file.resize(length.max(8), 0);
            self.read(&file)?;
        }
        Ok(())
    }

    /// The lists with which N and T are tried, as texts, and lists lent of the right length and of others.
    pub fn text_edges(&mut self) -> Result<(), String> {
        for ports in PORTS {
            for frame in FRAMES {
                let mut lists = self.edge_lists(ports, frame);
                lists.retain(|list| list.len() <= 289);
                for list in lists {
                    let writing = self.random.pick(&WRITINGS);
                    let text = PlanText::new(self.random, writing, ports.clamp(1, 17), frame, &list).bytes();
                    for out_length in [ports.min(17).pow(2), list.len(), list.len() + 1, 0] {
                        self.read_text(ports, frame, &text, out_length)?;
                    }
                }
            }
        }
        Ok(())
    }
}
