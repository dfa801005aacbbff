//! The rule of the choice, asserted of the subject's own answers: by the words of the scope and of request L4, not by the
//! model.

use super::tally::{Tie, Ties};
use crate::model::{Multiplexer, Switch};
use crate::operations::{PortReply, SlotReply};

struct Eligible {
    flow: usize,
    deadline: u64,
    rate: u16,
}

fn eligible(rates: &[u16], multiplexer: &Multiplexer, frame: u32, slot: u32) -> Vec<Eligible> {
    let (frame, slot) = (u64::from(frame), u64::from(slot));
    let counted = rates.iter().zip(&multiplexer.served).enumerate();
    let flows = counted.filter_map(|(flow, (&rate, &served))| {
        let (wide_rate, served) = (u64::from(rate), u64::from(served));
        let may = rate > 0 && served * frame <= slot * wide_rate;
        may.then(|| Eligible { flow, deadline: ((served + 1) * frame).div_ceil(wide_rate), rate })
    });
    flows.collect()
}

/// A port idles only if no flow is eligible. No eligible flow has a smaller deadline than the chosen one, nor an equal one
/// and a larger rate, nor both equal and a lower number.
pub fn judge(
    chosen: Option<usize>,
    rates: &[u16],
    multiplexer: &Multiplexer,
    frame: u32,
    slot: u32,
    ties: &mut Ties,
) -> Result<(), String> {
    let all = eligible(rates, multiplexer, frame, slot);
    let Some(flow) = chosen else {
        return all.first().map_or(Ok(()), |other| Err(format!("the port idles, and flow {} is eligible", other.flow)));
    };
    let Some(first) = all.iter().find(|eligible| eligible.flow == flow) else {
        return Err(format!("flow {flow} is chosen and not eligible"));
    };
    for other in all.iter().filter(|other| other.flow != flow) {
        let tie =
            goes_before(first, other).map_err(|what| format!("not flow {flow} but flow {} has {what}", other.flow))?;
        tie.into_iter().for_each(|tie| ties.seen(tie));
    }
    Ok(())
}

/// Which tie was decided, or what the other flow has that the chosen one lacks.
fn goes_before(first: &Eligible, other: &Eligible) -> Result<Option<Tie>, &'static str> {
    if first.deadline != other.deadline {
        return if first.deadline < other.deadline { Ok(None) } else { Err("a smaller deadline") };
    }
    if first.rate != other.rate {
        let tie = if first.flow < other.flow { Tie::LargerRateLowerNumber } else { Tie::LargerRateHigherNumber };
        return if first.rate > other.rate { Ok(Some(tie)) } else { Err("the same deadline and a larger rate") };
    }
    if first.flow < other.flow {
        Ok(Some(Tie::EqualRates))
    } else {
        Err("the same deadline and rate and a lower number")
    }
}

/// An accepted step from the given state: the choice of each port below N.
pub fn judge_slot(before: &Switch, reply: &SlotReply, ties: &mut Ties) -> Result<(), String> {
    let (plan, slot) = (&reply.state.running, before.slot);
    let chosen = |answer: &PortReply| (answer.kind != 0).then_some(answer.other);
    for port in 0..plan.ports {
        let (board, head) = (chosen(&reply.moves[port]), chosen(&reply.sends[port]));
        judge(board, plan.row(port), &before.boards[port], plan.frame, slot, ties)
            .map_err(|what| format!("board {port} in slot {slot}: {what}"))?;
        judge(head, &plan.column(port)[..plan.ports], &before.heads[port], plan.frame, slot, ties)
            .map_err(|what| format!("head {port} in slot {slot}: {what}"))?;
    }
    Ok(())
}
