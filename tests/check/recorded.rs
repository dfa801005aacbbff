//! What a head answered in a run, recorded slot by slot from a frame's start on while one plan runs, and measured. The
//! promise about a flow's services in a stretch is judged by the subject's own answers, not by the model.

use super::covers::{cover, told_call};
use super::random::Random;
use super::tally::{Branch, Tally};
use crate::model::meter::{Stretch, IDLE_SLOT, LONGEST_RECORD};
use crate::model::Plan;
use crate::operations::{CoverReply, Operations, SlotReply};

pub struct Recorded {
    random: Random,
    /// Empty from the end of a record to the next frame's start.
    record: Vec<u16>,
    /// How many slots the record may get.
    limit: usize,
    head: usize,
    /// The plan that runs while it is made.
    plan: Plan,
}

impl Recorded {
    pub fn new(seed: u64) -> Recorded {
        Recorded { random: Random::new(seed), record: Vec::new(), limit: 0, head: 0, plan: Plan::ZERO }
    }

    /// An accepted step of the given slot.
    pub fn step<S: Operations>(&mut self, slot: u32, reply: &SlotReply, tally: &mut Tally) -> Result<(), String> {
        let plan = &reply.state.running;
        if slot == 0 && (self.record.is_empty() || self.plan != *plan) {
            self.end::<S>(tally)?;
            self.begin(plan);
        }
        if slot > 0 && self.record.is_empty() {
            return Ok(());
        }
        let answer = &reply.sends[self.head];
        self.record.push(if answer.kind == 0 { IDLE_SLOT } else { answer.other as u16 });
        if self.record.len() == self.limit {
            self.end::<S>(tally)?;
        }
        Ok(())
    }

    /// Any head; a part of a frame up to many frames.
    fn begin(&mut self, plan: &Plan) {
        let frames = self.random.pick(&[1, 3, 10, 1_000]);
        self.limit = self.random.within(1, LONGEST_RECORD.min(frames * plan.frame as usize));
        self.head = self.random.below(plan.ports);
        self.plan = *plan;
    }

    /// Measures what was recorded.
    pub fn end<S: Operations>(&mut self, tally: &mut Tally) -> Result<(), String> {
        if self.record.is_empty() {
            return Ok(());
        }
        self.tally_record(tally);
        let (slots, frame) = (self.record.len(), self.plan.frame as usize);
        let any = self.random.within(1, slots);
        let length = self.random.pick(&[1, frame / 2 + 1, any]).min(slots);
        self.measure::<S>(IDLE_SLOT, length, tally)?;
        let rates = self.plan.column(self.head);
        let boards: Vec<usize> = (0..self.plan.ports).filter(|&board| rates[board] > 0).collect();
        for _ in 0..boards.len().min(2) {
            let board = self.random.pick(&boards);
            for length in [1, any, frame.min(slots), slots] {
                let reply = self.measure::<S>(board as u16, length, tally)?;
                judge(&reply, rates[board], self.plan.frame, length, tally).map_err(|what| {
                    format!("head {}: {}: {what}", self.head, told_call(&self.record, board as u16, length))
                })?;
            }
        }
        self.record.clear();
        Ok(())
    }

    fn measure<S: Operations>(&self, flow: u16, length: usize, tally: &mut Tally) -> Result<CoverReply, String> {
        tally.recorded += 1;
        cover::<S>(&self.record, flow, length, tally).map_err(|what| format!("head {}: {what}", self.head))
    }

    fn tally_record(&self, tally: &mut Tally) {
        let (slots, frame) = (self.record.len(), self.plan.frame as usize);
        tally.branch(if slots % frame == 0 { Branch::RecordOfWholeFrames } else { Branch::RecordInMidFrame });
        if slots > 2 * frame {
            tally.branch(Branch::RecordOfSeveralFrames);
        }
        if self.record.contains(&IDLE_SLOT) {
            tally.branch(Branch::RecordWithIdleSlots);
        }
    }
}

/// What is promised of a flow of rate a > 0 in any l > 0 slots: at most (l − 1) × a / T rounded up and one more services,
/// at least (l + 1) × a / T rounded down and one less.
pub fn judge(reply: &CoverReply, rate: u16, frame: u32, length: usize, tally: &mut Tally) -> Result<(), String> {
    let (rate, frame) = (usize::from(rate), frame as usize);
    let (most, least) = (((length - 1) * rate).div_ceil(frame) + 1, ((length + 1) * rate / frame).saturating_sub(1));
    let broken = |stretch: Stretch, bound: usize| {
        let Stretch { services, place } = stretch;
        format!("{services} services of rate {rate} of {frame} from slot {place} on, promised are {bound}")
    };
    if reply.most.services > most {
        return Err(broken(reply.most, most) + " at most");
    }
    if reply.least.services < least {
        return Err(broken(reply.least, least) + " at least");
    }
    if reply.most.services == most && length > 1 {
        tally.branch(Branch::AsManyAsPromised);
    }
    if reply.least.services == least && least > 0 {
        tally.branch(Branch::AsFewAsPromised);
    }
    Ok(())
}
