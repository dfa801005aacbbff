//! Records at the edges of the meter. What is to be answered follows from how a record is made, not from the model.

use crate::check::random::Random;
use crate::model::meter::{Stretch, IDLE_SLOT};
use crate::operations::CoverReply;

/// A call, and what is to be answered.
pub struct Made {
    pub record: Vec<u16>,
    pub flow: u16,
    pub length: usize,
    pub expected: CoverReply,
}

pub const EDGES: [(&str, fn(&mut Random) -> Made); 25] = [
    ("empty record, l = 0", |random| nothing(random, 0, 0, 0)),
    ("l = 0", |random| by_slots(random, |_| 0, 0)),
    ("l = 0, 65,535 slots", |random| nothing(random, 65_535, 0, 0)),
    ("empty record, l = 1: 17", |random| nothing(random, 0, 1, 17)),
    ("empty record, l = 2^64 - 1: 17", |random| nothing(random, 0, usize::MAX, 17)),
    ("l one above the record's length: 17", |random| by_slots(random, |slots| slots + 1, 17)),
    ("l one above 65,535, 65,535 slots: 17", |random| nothing(random, 65_535, 65_536, 17)),
    ("l = 2^16 and what would fit: 17", |random| by_slots(random, |slots| (1 << 16) + slots / 2, 17)),
    ("l = 2^32 and what would fit: 17", |random| by_slots(random, |slots| (1 << 32) + slots / 2, 17)),
    ("l = 2^64 - 1: 17", |random| by_slots(random, |_| usize::MAX, 17)),
    ("65,536 slots: 17", |random| too_long(random, 65_536)),
    ("65,536 slots, l = 0: 17", |random| nothing(random, 65_536, 0, 17)),
    ("65,536 slots, l = 65,536: 17", |random| nothing(random, 65_536, 65_536, 17)),
    ("131,073 slots: 17", |random| too_long(random, 131_073)),
    ("l = the record's length", |random| whole(random, &[1, 2, 3, 39, 40])),
    ("l = the record's length, 65,535 slots", |random| whole(random, &[65_535])),
    ("65,535 slots, each a service", |random| all_served(random, 65_535)),
    ("65,535 slots, one service", |random| one_service(random, 65_535)),
    ("flow that never occurs", absent),
    ("flow 65,535, idle slots", idle_slots),
    ("most at the last place alone", |random| Block::at_the_end(random).most()),
    ("least at the last place alone", |random| Block::at_the_end(random).least()),
    ("most at two places", |random| two_blocks(random, false)),
    ("least at two places", |random| two_blocks(random, true)),
    ("the same at all places", alternating),
];

fn answer(verdict: u32, least: (usize, usize), most: (usize, usize)) -> CoverReply {
    let stretch = |(services, place)| Stretch { services, place };
    CoverReply { verdict, least: stretch(least), most: stretch(most) }
}

/// Two numbers, the first of them for the flow.
fn two_numbers(random: &mut Random) -> [u16; 2] {
    let flow = random.below(16) as u16;
    let other = random.pick(&[flow + 1, flow + 256, IDLE_SLOT]);
    random.pick(&[[flow, other], [other, flow]])
}

/// A record in which the flow and another number stand anywhere.
fn mixed(random: &mut Random, slots: usize, numbers: [u16; 2]) -> Vec<u16> {
    (0..slots).map(|_| random.pick(&numbers)).collect()
}

/// The answer has no services, be it for a refusal.
fn nothing(random: &mut Random, slots: usize, length: usize, verdict: u32) -> Made {
    let numbers = two_numbers(random);
    let record = mixed(random, slots, numbers);
    Made { record, flow: numbers[0], length, expected: answer(verdict, (0, 0), (0, 0)) }
}

/// The same for records of several lengths, which tell l.
fn by_slots(random: &mut Random, length: fn(slots: usize) -> usize, verdict: u32) -> Made {
    let any = random.within(1, 100);
    let slots = random.pick(&[1, 2, any, 1_000]);
    nothing(random, slots, length(slots), verdict)
}

/// Whatever l is.
fn too_long(random: &mut Random, slots: usize) -> Made {
    let any = random.within(1, slots);
    let length = random.pick(&[1, 65_535, any, slots, slots + 1]);
    nothing(random, slots, length, 17)
}

fn whole(random: &mut Random, slots: &[usize]) -> Made {
    let slots = random.pick(slots);
    let numbers = two_numbers(random);
    let record = mixed(random, slots, numbers);
    let services = record.iter().filter(|&&served| served == numbers[0]).count();
    Made { record, flow: numbers[0], length: slots, expected: answer(0, (services, 0), (services, 0)) }
}

fn all_served(random: &mut Random, slots: usize) -> Made {
    let [flow, _] = two_numbers(random);
    let any = random.within(1, slots);
    let length = random.pick(&[1, any, slots]);
    Made { record: vec![flow; slots], flow, length, expected: answer(0, (length, 0), (length, 0)) }
}

fn one_service(random: &mut Random, slots: usize) -> Made {
    let [flow, other] = two_numbers(random);
    let (any_slot, any_length) = (random.below(slots), random.within(1, slots));
    let served = random.pick(&[0, any_slot, slots - 1]);
    let length = random.pick(&[1, 2, any_length, slots]);
    let mut record = vec![other; slots];
    record[served] = flow;
    let least = if length <= served {
        (0, 0)
    } else if served + 1 + length <= slots {
        (0, served + 1)
    } else {
        (1, 0)
    };
    let most = (1, (served + 1).saturating_sub(length));
    Made { record, flow, length, expected: answer(0, least, most) }
}

fn absent(random: &mut Random) -> Made {
    let [flow, other] = two_numbers(random);
    let slots = random.within(1, 100);
    let length = random.within(1, slots);
    Made { record: vec![other; slots], flow, length, expected: answer(0, (0, 0), (0, 0)) }
}

/// A block of one number among others, which is as long as a stretch.
struct Block {
    slots: usize,
    first: usize,
    length: usize,
    numbers: [u16; 2],
}

impl Block {
    /// There is room for a stretch beside it.
    fn from(random: &mut Random, first: fn(&mut Random, last: usize) -> usize) -> Block {
        let length = random.within(1, 30);
        let slots = 3 * length + random.below(30);
        Block { slots, first: first(random, slots - length), length, numbers: two_numbers(random) }
    }

    fn at_the_end(random: &mut Random) -> Block {
        Block::from(random, |_, last| last)
    }

    fn record(&self, inside: u16, outside: u16) -> Vec<u16> {
        let block = self.first..self.first + self.length;
        (0..self.slots).map(|slot| if block.contains(&slot) { inside } else { outside }).collect()
    }

    /// The first place from which no slot of the block is reached.
    fn beside(&self) -> usize {
        if self.length <= self.first {
            0
        } else {
            self.first + self.length
        }
    }

    /// Every slot of the block is a service, and no other one is.
    fn most(&self) -> Made {
        let [flow, other] = self.numbers;
        let expected = answer(0, (0, self.beside()), (self.length, self.first));
        Made { record: self.record(flow, other), flow, length: self.length, expected }
    }

    /// No slot of the block is a service, and every other one is.
    fn least(&self) -> Made {
        let [flow, other] = self.numbers;
        let expected = answer(0, (0, self.first), (self.length, self.beside()));
        Made { record: self.record(other, flow), flow, length: self.length, expected }
    }
}

fn idle_slots(random: &mut Random) -> Made {
    let mut block = Block::from(random, |random, last| random.within(0, last));
    block.numbers = [IDLE_SLOT, random.pick(&[0, 15, IDLE_SLOT - 1])];
    if random.flip() {
        block.most()
    } else {
        block.least()
    }
}

/// A block of services and a second one somewhere behind it, or the same of slots without a service. Before them there is
/// room for a stretch.
fn two_blocks(random: &mut Random, least: bool) -> Made {
    let [flow, other] = two_numbers(random);
    let length = random.within(1, 20);
    let first = length + random.below(20);
    let between = random.below(20);
    let (inside, outside) = if least { (other, flow) } else { (flow, other) };
    let block = vec![inside; length];
    let behind = vec![outside; random.below(20)];
    let record = [vec![outside; first], block.clone(), vec![outside; between], block, behind].concat();
    let (found, before) = ((if least { 0 } else { length }, first), (if least { length } else { 0 }, 0));
    let expected = if least { answer(0, found, before) } else { answer(0, before, found) };
    Made { record, flow, length, expected }
}

/// Every second slot is a service, and l is even.
fn alternating(random: &mut Random) -> Made {
    let numbers = two_numbers(random);
    let half = random.within(1, 20);
    let slots = 2 * half + random.below(40);
    let record = numbers.into_iter().cycle().take(slots).collect();
    Made { record, flow: numbers[0], length: 2 * half, expected: answer(0, (half, 0), (half, 0)) }
}
