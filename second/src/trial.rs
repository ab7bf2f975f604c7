//! A sequence of steps on engine and model, logged, watched and counted.

use crate::calls::{Answer, Call, State, Step};
use crate::pair::Pair;
use crate::schema::Schema;
use crate::tally::Tally;
use crate::watch::Watch;

/// Why a sequence stops before its end.
pub enum Halt {
    /// The run has made all its calls.
    Over,
    /// Engine and model differ, or the outside check fails.
    Trouble(String),
}

/// Engine and model, and the outside check if the sequence is a history on a good base.
pub struct Bench {
    pair: Pair,
    watch: Option<Watch>,
}

impl Bench {
    pub fn new(watched: Option<&Schema>) -> Bench {
        Bench { pair: Pair::new(), watch: watched.map(Watch::new) }
    }

    /// Carries out a step on both sides. A call is compared and watched.
    pub fn step(&mut self, step: &Step) -> Result<Option<Answer>, String> {
        let Step::Call(call) = step else {
            self.pair.prepare(step);
            return Ok(None);
        };
        let cursors = self.pair.engine.cursors;
        let answers = self.pair.call(call);
        if let Some(what) = self.pair.difference(&answers) {
            return Err(what);
        }
        if let Some(watch) = &mut self.watch {
            watch.see(call, &cursors, &answers.engine, &self.pair.engine)?;
        }
        Ok(Some(answers.engine))
    }
}

/// One sequence of a run.
pub struct Trial<'t> {
    bench: Bench,
    log: Vec<Step>,
    tally: &'t mut Tally,
}

impl<'t> Trial<'t> {
    pub fn new(watched: Option<&Schema>, tally: &'t mut Tally) -> Trial<'t> {
        Trial { bench: Bench::new(watched), log: Vec::new(), tally }
    }

    /// Carries out a step; answers whether it was an accepted call.
    pub fn step(&mut self, step: Step) -> Result<bool, Halt> {
        if self.tally.is_over() {
            return Err(Halt::Over);
        }
        let answer = self.bench.step(&step);
        let call = if let Step::Call(call) = &step { Some(call.index()) } else { None };
        self.log.push(step);
        let condition = answer.map_err(Halt::Trouble)?.map(|answer| answer.condition());
        if let (Some(call), Some(condition)) = (call, condition) {
            self.tally.count(call, condition);
        }
        Ok(condition == Some(0))
    }

    pub fn call(&mut self, call: Call) -> Result<bool, Halt> {
        self.step(Step::Call(call))
    }

    pub fn steps(&mut self, steps: impl IntoIterator<Item = Step>) -> Result<(), Halt> {
        steps.into_iter().try_for_each(|step| self.step(step).map(drop))
    }

    pub fn state(&self) -> &State {
        &self.bench.pair.engine
    }

    pub fn into_log(self) -> Vec<Step> {
        self.log
    }
}
