//! Runs: the subject and the model get the same calls, and all that comes back is compared after each.

use super::choices::judge_slot;
use super::guarded::Guarded;
use super::promises::Promises;
use super::random::Random;
use super::recorded::Recorded;
use super::same::{same_list, same_ports, same_state, same_verdict};
use super::script::Script;
use super::tally::{Branch, Tally};
use crate::model::refusal::number;
use crate::model::{Port, Refusal, SlotAnswer, Switch};
use crate::operations::{Operations, SlotReply};
use std::fmt;
use std::marker::PhantomData;

/// How often the choices of all ports are looked at by themselves.
const CHOICES_LOOK: u64 = 16;

/// Calls that cutting a failing list down may cost.
const CUTTING_CALLS: usize = 3_000_000;

#[derive(Clone)]
pub struct Start {
    pub ports: usize,
    pub frame: u32,
    pub rates: Vec<u16>,
    pub depth: usize,
    /// The store is first filled from this seed.
    pub store_seed: u64,
}

/// `lent` is the length of a list lent in the store's place.
#[derive(Clone)]
pub enum Call {
    Arrive { input: usize, output: usize, cell: u32, lent: Option<usize> },
    Load { ports: usize, frame: u32, rates: Vec<u16> },
    Step { lent: Option<usize> },
}

pub struct Failure {
    pub run_seed: u64,
    pub start: Start,
    pub calls: Vec<Call>,
    pub what: String,
    pub first_seen: usize,
}

/// One run, begun by an accepted start.
pub struct Run<S> {
    subject: Side,
    model: Side,
    promises: Promises,
    recorded: Recorded,
    implementation: PhantomData<S>,
}

struct Side {
    state: Switch,
    store: Guarded<u32>,
}

/// Runs a random list of calls to its end.
pub fn random_run<S: Operations>(run_seed: u64, tally: &mut Tally) -> Result<(), Failure> {
    let mut script = Script::new(run_seed);
    let start = script.start.clone();
    let mut calls: Vec<Call> = Vec::new();
    let outcome = run_script::<S>(&mut script, &start, &mut calls, tally);
    tally.run(start.frame);
    outcome.map_err(|what| {
        let first_seen = calls.len();
        let (calls, what) = cut_down::<S>(&start, calls, what);
        Failure { run_seed, start, calls, what, first_seen }
    })
}

fn run_script<S: Operations>(
    script: &mut Script,
    start: &Start,
    calls: &mut Vec<Call>,
    tally: &mut Tally,
) -> Result<(), String> {
    let mut run = Run::<S>::begin(start)?;
    while let Some(call) = script.next_call() {
        calls.push(call);
        if let Some(answer) = run.call(&calls[calls.len() - 1], tally)? {
            script.answered(&answer);
        }
    }
    run.end(tally)
}

/// The first call that shows a difference, and the difference; the end of the run counts as a call.
fn replay<S: Operations>(start: &Start, calls: &[Call]) -> Option<(usize, String)> {
    let mut tally = Tally::default();
    let mut run = match Run::<S>::begin(start) {
        Ok(run) => run,
        Err(what) => return Some((0, what)),
    };
    for (place, call) in calls.iter().enumerate() {
        if let Err(what) = run.call(call, &mut tally) {
            return Some((place + 1, what));
        }
    }
    run.end(&mut tally).err().map(|what| (calls.len(), what))
}

/// The shortest failing prefix, then whatever else can go while the list still fails.
fn cut_down<S: Operations>(start: &Start, mut calls: Vec<Call>, mut what: String) -> (Vec<Call>, String) {
    let mut left = CUTTING_CALLS;
    let mut piece = calls.len() / 2;
    while piece > 0 {
        let mut place = 0;
        while place < calls.len() && left > calls.len() {
            left -= calls.len();
            let mut shorter = calls.clone();
            shorter.drain(place..(place + piece).min(calls.len()));
            match replay::<S>(start, &shorter) {
                Some((length, difference)) => {
                    shorter.truncate(length);
                    calls = shorter;
                    what = difference;
                }
                None => place += piece,
            }
        }
        piece /= 2;
    }
    (calls, what)
}

impl<S: Operations> Run<S> {
    fn begin(start: &Start) -> Result<Run<S>, String> {
        let Start { ports, frame, rates, depth, store_seed } = start;
        let store = Guarded::cells(&mut Random::new(*store_seed), ports * ports * depth);
        let mut subject = Side { state: Switch::ZERO, store: store.clone() };
        let mut model = Side { state: Switch::ZERO, store };
        let reply = S::start(*ports, *frame, rates, *depth, subject.store.list());
        subject.state = reply.state;
        let outcome = Switch::start(*ports, *frame, rates, *depth, model.store.list());
        same_verdict(reply.verdict, number(&outcome))?;
        model.state = outcome.map_err(|refusal| format!("the start is refused {}", refusal as u32))?;
        let promises = Promises::new(&model.state.running);
        let recorded = Recorded::new(*store_seed);
        let run = Run { subject, model, promises, recorded, implementation: PhantomData };
        run.same_sides()?;
        Ok(run)
    }

    /// Answers the ports of an accepted step.
    fn call(&mut self, call: &Call, tally: &mut Tally) -> Result<Option<SlotAnswer>, String> {
        tally.calls += 1;
        match call {
            Call::Arrive { input, output, cell, lent } => {
                self.arrive(*input, *output, *cell, *lent, tally).map(|()| None)
            }
            Call::Load { ports, frame, rates } => self.load(*ports, *frame, rates, tally).map(|()| None),
            Call::Step { lent } => self.step(*lent, tally),
        }
    }

    fn end(&mut self, tally: &mut Tally) -> Result<(), String> {
        self.recorded.end::<S>(tally)?;
        self.promises.end(&self.subject.state, self.subject.store.list())
    }

    fn arrive(
        &mut self,
        input: usize,
        output: usize,
        cell: u32,
        lent: Option<usize>,
        tally: &mut Tally,
    ) -> Result<(), String> {
        let (reply, outcome); // assigned in place: states are large
        match lent {
            None => {
                reply = S::arrive(&self.subject.state, self.subject.store.list_mut(), input, output, cell);
                outcome = self.model.state.arrive(self.model.store.list_mut(), input, output, cell);
            }
            Some(length) => {
                tally.branch(Branch::StoreOfOtherLength);
                let mut list = lent_list(length);
                reply = S::arrive(&self.subject.state, &mut list, input, output, cell);
                if list != lent_list(length) {
                    return Err("a refused arrival wrote the lent list".to_string());
                }
                outcome = self.model.state.arrive(&mut list, input, output, cell);
            }
        }
        self.subject.state = reply.state;
        self.compare(reply.verdict, &outcome, tally)?;
        if outcome.is_ok() {
            let state = &self.model.state;
            let flow = state.flow(input, output);
            let queue = state.queues[flow];
            if usize::from(queue.place) + usize::from(queue.count) > state.depth {
                tally.branch(Branch::ArrivalWraps);
            }
            self.promises.arrival(&self.subject.state, self.subject.store.list(), flow, cell)?;
        }
        Ok(())
    }

    fn load(&mut self, ports: usize, frame: u32, rates: &[u16], tally: &mut Tally) -> Result<(), String> {
        let reply = S::load(&self.subject.state, ports, frame, rates);
        self.subject.state = reply.state;
        let outcome = self.model.state.load(ports, frame, rates);
        if outcome.is_ok() && self.model.state.slot > 0 {
            tally.branch(Branch::LoadInMidFrame);
        }
        self.compare(reply.verdict, &outcome, tally)?;
        if outcome.is_ok() {
            self.promises.load(rates, tally);
        }
        Ok(())
    }

    fn step(&mut self, lent: Option<usize>, tally: &mut Tally) -> Result<Option<SlotAnswer>, String> {
        let takeover = self.model.state.takes_over();
        let (reply, outcome);
        match lent {
            None => {
                reply = S::step(&self.subject.state, self.subject.store.list());
                outcome = self.model.state.step(self.model.store.list());
            }
            Some(length) => {
                tally.branch(Branch::StoreOfOtherLength);
                let list = lent_list(length);
                reply = S::step(&self.subject.state, &list);
                if list != lent_list(length) {
                    return Err("a refused step wrote the lent list".to_string());
                }
                outcome = self.model.state.step(&list);
            }
        }
        let before = (tally.slots % CHOICES_LOOK == 0).then_some(self.subject.state);
        let slot = self.subject.state.slot;
        self.subject.state = reply.state;
        self.compare(reply.verdict, &outcome, tally)?;
        let answer = outcome.unwrap_or(SlotAnswer::IDLE);
        same_ports("board", &reply.moves, &answer.moves)?;
        same_ports("head", &reply.sends, &answer.sends)?;
        if outcome.is_err() {
            return Ok(None);
        }
        tally.slots += 1;
        if takeover {
            tally.branch(Branch::Takeover);
        }
        if reply.state.slot == 0 {
            tally.branch(Branch::FrameEnd);
        }
        self.tally_ports(&answer, tally);
        self.judge_step(slot, before.as_ref(), &reply, tally)?;
        Ok(Some(answer))
    }

    /// What the subject answered in an accepted step, by itself; now and then with the state before it.
    fn judge_step(
        &mut self,
        slot: u32,
        before: Option<&Switch>,
        reply: &SlotReply,
        tally: &mut Tally,
    ) -> Result<(), String> {
        if let Some(before) = before {
            judge_slot(before, reply, &mut tally.slot_ties)?;
        }
        self.promises.step(reply, self.subject.store.list(), tally)?;
        self.recorded.step::<S>(slot, reply, tally)
    }

    fn tally_ports(&self, answer: &SlotAnswer, tally: &mut Tally) {
        let state = &self.model.state;
        for port in 0..state.ports() {
            tally.ports(&answer.moves[port], &answer.sends[port]);
            if let Port::Moved { other, .. } = answer.moves[port] {
                if state.depth > 1 && state.queues[state.flow(port, other)].place == 0 {
                    tally.branch(Branch::MoveWraps);
                }
            }
        }
    }

    fn compare<T>(&self, verdict: u32, outcome: &Result<T, Refusal>, tally: &mut Tally) -> Result<(), String> {
        same_verdict(verdict, number(outcome))?;
        self.same_sides()?;
        if verdict == 12 || verdict == 13 {
            return Err(format!("a call of a run is refused {verdict}"));
        }
        tally.verdict(verdict);
        Ok(())
    }

    fn same_sides(&self) -> Result<(), String> {
        same_state(&self.subject.state, &self.model.state)?;
        same_list(&self.subject.store, &self.model.store)
    }
}

/// A list that stands in the store's place.
fn lent_list(length: usize) -> Vec<u32> {
    (0..length as u32).map(|place| place.wrapping_mul(0x9E37_79B9)).collect()
}

impl fmt::Display for Failure {
    fn fmt(&self, out: &mut fmt::Formatter) -> fmt::Result {
        let Start { ports, frame, rates, depth, store_seed } = &self.start;
        writeln!(out, "the run of seed {} (compare 1 {0}), first seen at call {}", self.run_seed, self.first_seen)?;
        writeln!(out, "the calls that are needed for it, {} in all:", self.calls.len())?;
        writeln!(out, "  start N {ports} T {frame} Q {depth} rates {rates:?}, store filled from seed {store_seed}")?;
        let mut place = 0;
        while place < self.calls.len() {
            let steps = self.calls[place..].iter().take_while(|call| matches!(call, Call::Step { lent: None })).count();
            if steps > 1 {
                writeln!(out, "  step, {steps} times")?;
            } else {
                writeln!(out, "  {}", self.calls[place])?;
            }
            place += steps.max(1);
        }
        write!(out, "after the last call: {}", self.what)
    }
}

impl fmt::Display for Call {
    fn fmt(&self, out: &mut fmt::Formatter) -> fmt::Result {
        let lent = match self {
            Call::Arrive { input, output, cell, lent } => {
                write!(out, "arrive input {input} output {output} cell {cell:#x}")?;
                lent
            }
            Call::Load { ports, frame, rates } => {
                return write!(out, "load N {ports} T {frame} rates {rates:?}");
            }
            Call::Step { lent } => {
                write!(out, "step")?;
                lent
            }
        };
        match lent {
            None => Ok(()),
            Some(length) => write!(out, " with a list of {length} in the store's place"),
        }
    }
}
