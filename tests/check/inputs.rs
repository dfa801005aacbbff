//! Every public operation on random inputs and on those at the edges of what can be handed over.

mod edges;
mod samples;
mod texts;

use super::calls::Outcome;
use super::choices::judge;
use super::guarded::Guarded;
use super::random::Random;
use super::same::{same, same_list, same_state, same_verdict, told, told_text};
use super::tally::Tally;
use super::texts::PlanText;
use crate::model::plan::{column_sum, row_sum};
use crate::model::Multiplexer;
use crate::operations::{Choice, Model, Operations};
use std::marker::PhantomData;

/// Edge inputs once, random ones `rounds` times.
pub fn compare<S: Operations>(rounds: usize, random: &mut Random, tally: &mut Tally) -> Result<(), String> {
    let mut inputs = Inputs::<S> { random, tally, implementation: PhantomData };
    same("version", &S::version(), &Model::version())?;
    inputs.plan_edges()?;
    inputs.period_edges()?;
    inputs.fair_start()?;
    inputs.desk_view_edges()?;
    inputs.multiplexer_edges()?;
    inputs.table_edges()?;
    inputs.table_entries()?;
    inputs.start_edges()?;
    inputs.switch_edges()?;
    inputs.file_edges()?;
    inputs.text_edges()?;
    inputs.named_texts()?;
    inputs.damaged_texts()?;
    inputs.longest_texts()?;
    inputs.long_texts()?;
    for _ in 0..rounds {
        inputs.random_plan()?;
        inputs.random_desk_view()?;
        inputs.random_choice()?;
        inputs.random_tie()?;
        inputs.random_frame()?;
        inputs.random_start()?;
        inputs.random_file()?;
        inputs.random_text()?;
    }
    Ok(())
}

/// Each operation once, on the subject and on the model.
struct Inputs<'a, S> {
    random: &'a mut Random,
    tally: &'a mut Tally,
    implementation: PhantomData<S>,
}

impl<S: Operations> Inputs<'_, S> {
    fn accept(&mut self, ports: usize, frame: u32, rates: &[u16]) -> Result<u32, String> {
        let verdict = Model::accept(ports, frame, rates);
        self.seen(verdict);
        same_verdict(S::accept(ports, frame, rates), verdict)
            .map_err(|what| format!("accept N {ports} T {frame} rates {}: {what}", told(rates)))?;
        Ok(verdict)
    }

    fn desk_view(
        &mut self,
        running: &[u16],
        waiting: &[u16],
        ports: usize,
        input: usize,
        takeover: u32,
        out_length: usize,
    ) -> Result<(), String> {
        let mut subject_out = Guarded::rates(self.random, out_length);
        let mut model_out = subject_out.clone();
        let subject = S::desk_view(running, waiting, ports, input, takeover, subject_out.list_mut());
        let model = Model::desk_view(running, waiting, ports, input, takeover, model_out.list_mut());
        self.tally.inputs += 1;
        same("length", &subject, &model).and_then(|()| same_list(&subject_out, &model_out)).map_err(|what| {
            format!(
                "desk view running {} waiting {} N {ports} input {input} takeover {takeover} out {out_length}: {what}",
                told(running),
                told(waiting)
            )
        })
    }

    fn scale(&mut self, ports: usize, frame: u32, demands: &[u16], out_length: usize) -> Result<(), String> {
        let mut subject_out = Guarded::rates(self.random, out_length);
        let mut model_out = subject_out.clone();
        let subject = S::scale(ports, frame, demands, subject_out.list_mut());
        let model = Model::scale(ports, frame, demands, model_out.list_mut());
        self.seen(model);
        same_verdict(subject, model)
            .and_then(|()| same_list(&subject_out, &model_out))
            .map_err(|what| format!("scale N {ports} T {frame} demands {} out {out_length}: {what}", told(demands)))?;
        if subject == 0 {
            self.accept(ports, frame, subject_out.list())?;
        }
        Ok(())
    }

    fn boost(&mut self, ports: usize, frame: u32, period: u32, given: &[u16], out_length: usize) -> Result<(), String> {
        let mut subject_out = Guarded::rates(self.random, out_length);
        let mut model_out = subject_out.clone();
        let subject = S::boost(ports, frame, period, given, subject_out.list_mut());
        let model = Model::boost(ports, frame, period, given, model_out.list_mut());
        self.seen(model);
        let promised =
            || if subject == 0 { judge_boosted(ports, frame, period, given, subject_out.list()) } else { Ok(()) };
        same_verdict(subject, model)
            .and_then(|()| same_list(&subject_out, &model_out))
            .and_then(|()| promised())
            .map_err(|what| {
                format!("boost N {ports} T {frame} period {period} plan {} out {out_length}: {what}", told(given))
            })
    }

    fn read(&mut self, bytes: &[u8]) -> Result<u32, String> {
        let (subject, model) = (S::read(bytes), Model::read(bytes));
        self.seen(model.verdict);
        same_verdict(subject.verdict, model.verdict)
            .and_then(|()| same("plan", &subject.plan, &model.plan))
            .map_err(|what| format!("read {bytes:02x?}: {what}"))?;
        Ok(model.verdict)
    }

    /// Answers the verdict and the lent list.
    fn read_text(
        &mut self,
        ports: usize,
        frame: u32,
        text: &[u8],
        out_length: usize,
    ) -> Result<(u32, Guarded<u16>), String> {
        let lent = Guarded::rates(self.random, out_length);
        let (mut subject_out, mut model_out) = (lent.clone(), lent.clone());
        let subject = S::read_text(ports, frame, text, subject_out.list_mut());
        let model = Model::read_text(ports, frame, text, model_out.list_mut());
        self.seen(model);
        self.tally.texts += 1;
        same_verdict(subject, model)
            .and_then(|()| same_list(&subject_out, &model_out))
            .and_then(|()| same("a refused call leaves the list", &(subject == 0 || subject_out == lent), &true))
            .map_err(|what| {
                format!("read_text N {ports} T {frame} text {} out {out_length}: {what}", told_text(text))
            })?;
        Ok((subject, subject_out))
    }

    /// A text that was made for a verdict; where that is 0, the list holds the rates that were written.
    fn made_text(&mut self, made: &PlanText, expected: u32) -> Result<(), String> {
        let text = made.bytes();
        let (verdict, list) = self.read_text(made.ports, made.frame, &text, made.rates.len())?;
        if verdict != expected || verdict == 0 && list.list() != made.rates {
            let shape = format!("N {} T {}", made.ports, made.frame);
            let answer = format!("verdict {verdict}, expected {expected}; the list holds {}", told(list.list()));
            return Err(format!("read_text {shape} text {}: {answer}", told_text(&text)));
        }
        Ok(())
    }

    fn choose(&mut self, multiplexer: &Multiplexer, rates: &[u16], frame: u32, slot: u32) -> Result<Choice, String> {
        let subject = S::choose(multiplexer, rates, frame, slot);
        self.tally.inputs += 1;
        same("choice", &subject, &Model::choose(multiplexer, rates, frame, slot))
            .and_then(|()| judge(subject.flow(), rates, multiplexer, frame, slot, &mut self.tally.ties))
            .map_err(|what| format!("choose, {multiplexer:?}, rates {} T {frame} slot {slot}: {what}", told(rates)))?;
        Ok(subject)
    }

    fn count(&mut self, multiplexer: &Multiplexer, choice: Choice) -> Result<Multiplexer, String> {
        let subject = S::count(multiplexer, choice);
        self.tally.inputs += 1;
        same("counts", &subject, &Model::count(multiplexer, choice))
            .map_err(|what| format!("count, {multiplexer:?}, {choice:?}: {what}"))?;
        Ok(subject)
    }

    fn end_frame(&mut self, multiplexer: &Multiplexer, ports: usize) -> Result<(), String> {
        self.tally.inputs += 1;
        same("counts", &S::end_frame(multiplexer, ports), &Model::end_frame(multiplexer, ports))
            .map_err(|what| format!("end of frame, {multiplexer:?}, N {ports}: {what}"))
    }

    fn start(
        &mut self,
        ports: usize,
        frame: u32,
        rates: &[u16],
        depth: usize,
        store_length: usize,
    ) -> Result<u32, String> {
        let store = Guarded::cells(self.random, store_length);
        let kept = store.clone();
        let subject = S::start(ports, frame, rates, depth, store.list());
        let model = Model::start(ports, frame, rates, depth, kept.list());
        self.seen(model.verdict);
        same_verdict(subject.verdict, model.verdict)
            .and_then(|()| same_state(&subject.state, &model.state))
            .and_then(|()| same_list(&store, &kept))
            .map_err(|what| {
                let rates = told(rates);
                format!("start N {ports} T {frame} rates {rates} Q {depth}, store of {store_length}: {what}")
            })?;
        Ok(model.verdict)
    }

    /// Tallies a call on a state.
    fn call(&mut self, outcome: Outcome) -> Result<(), String> {
        let (verdict, _) = outcome?;
        self.seen(verdict);
        Ok(())
    }

    fn seen(&mut self, verdict: u32) {
        self.tally.inputs += 1;
        self.tally.verdict(verdict);
    }
}

/// What is promised of a boosted plan, judged by the two lists alone.
fn judge_boosted(ports: usize, frame: u32, period: u32, given: &[u16], list: &[u16]) -> Result<(), String> {
    let mut lines = (0..ports).map(|line| (row_sum(ports, list, line), column_sum(ports, list, line)));
    let all_full = lines.all(|sums| sums == (frame, frame));
    let none_falls = list.iter().zip(given).all(|(rate, before)| rate >= before);
    let gains_all = |input: usize| {
        let output = ((u64::from(period) + input as u64) % ports as u64) as usize;
        let fuller = row_sum(ports, given, input).max(column_sum(ports, given, output));
        let flow = input * ports + output;
        u32::from(list[flow]) == u32::from(given[flow]) + frame - fuller
    };
    same("every line is full", &all_full, &true)
        .and_then(|()| same("no rate falls", &none_falls, &true))
        .and_then(|()| same("the first diagonal gains all it can", &(0..ports).all(gains_all), &true))
}

pub fn plan_file(ports: u8, frame: u16, rates: &[u16]) -> Vec<u8> {
    let mut file = b"LSP\x01\0".to_vec();
    file.push(ports);
    file.extend(frame.to_le_bytes());
    file.extend(rates.iter().flat_map(|rate| rate.to_le_bytes()));
    file
}
