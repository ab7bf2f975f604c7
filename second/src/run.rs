//! `run`: random sequences on engine and model until enough calls are made.

use crate::calls::Step;
use crate::random::Random;
use crate::schema::Schema;
use crate::sequences::Kind;
use crate::shrink::shrink;
use crate::tally::Tally;
use crate::trial::{Halt, Trial};

pub struct Options {
    pub calls: u64,
    pub seed: u64,
    pub seconds: Option<u64>,
}

/// A run of so many calls must have seen every condition word.
const ENOUGH: u64 = 1_000_000;

/// A base of capacity 4,095 is filled when this many calls are made, and again after as many.
const FULL_EVERY: u64 = 300_000;

/// A sequence that showed a difference, or failed the outside check.
struct Found {
    what: String,
    steps: Vec<Step>,
    watched: Option<Schema>,
}

/// Runs; answers whether all is well.
pub fn run(options: &Options) -> bool {
    println!("seed {}", options.seed);
    let mut tally = Tally::new(options.calls, options.seconds);
    if let Some(found) = search(options.seed, &mut tally) {
        report(&found);
        return false;
    }
    let (calls, seconds) = (tally.calls(), tally.seconds());
    println!("{}\n{}", tally.sequences(), tally.table());
    println!("{calls} calls in {seconds:.1} s, no difference");
    let missing = tally.missing();
    if !missing.is_empty() {
        println!("never answered: {missing:?}");
    }
    missing.is_empty() || calls < ENOUGH
}

/// Works sequences until the run is over or something is found.
fn search(seed: u64, tally: &mut Tally) -> Option<Found> {
    let mut random = Random::new(seed);
    let mut next_full = FULL_EVERY;
    loop {
        let mut kind = Kind::draw(&mut random);
        if tally.calls() >= next_full {
            next_full += FULL_EVERY;
            kind = Kind::Full;
        }
        let schema = kind.schema(&mut random);
        tally.note(kind.name());
        schema.limits_met().into_iter().for_each(|limit| tally.note(limit));
        let watched = kind.is_watched().then_some(&schema);
        let mut trial = Trial::new(watched, tally);
        match kind.work(&mut random, &schema, &mut trial) {
            Ok(()) => {}
            Err(Halt::Over) => return None,
            Err(Halt::Trouble(what)) => {
                let steps = trial.into_log();
                return Some(Found { what, steps, watched: watched.cloned() });
            }
        }
    }
}

/// Prints what was found, shrunk, in lines that `rerun` takes.
fn report(found: &Found) {
    println!("# found after {} steps: {}", found.steps.len(), found.what);
    let (steps, what) = shrink(&found.steps, found.watched.as_ref());
    println!("# shrunk to {} steps: {what}", steps.len());
    steps.iter().for_each(|step| println!("{step}"));
}
