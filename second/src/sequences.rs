//! The kinds of sequences that a run is made of.

use crate::caller::Caller;
use crate::calls::{Call, Step};
use crate::damage::{damage, damage_chain, odd_cursor, plausible_area};
use crate::draw::{self, Size, LIMITS, MEDIUM, SMALL};
use crate::edges::edge_root;
use crate::model;
use crate::random::Random;
use crate::schema::{Schema, Set, AUTOMATIC, DETAIL, MANUAL, TYPE_K, TYPE_X};
use crate::trial::{Halt, Trial};

/// A kind of sequence: the base it is worked on is drawn first, then its steps.
#[derive(Clone, Copy)]
pub enum Kind {
    /// Calls from a new base and fresh cursors on; watched from the outside.
    History(&'static Size),
    /// A history, then damage and odd cursors, again and again.
    Damaged(&'static Size),
    /// An area of random words, all of them random or most links within bounds.
    RandomArea,
    /// A root near the rules' edges.
    EdgeRoot,
    /// Capacity 4,095, filled to the last record and over; watched from the outside.
    Full,
}

impl Kind {
    /// Any kind but the full one.
    pub fn draw(random: &mut Random) -> Kind {
        match random.below(100) {
            0..=24 => Kind::History(&SMALL),
            25..=29 => Kind::History(&MEDIUM),
            30..=33 => Kind::History(&LIMITS),
            34..=55 => Kind::Damaged(&SMALL),
            56..=57 => Kind::Damaged(&MEDIUM),
            58 => Kind::Damaged(&LIMITS),
            59..=79 => Kind::RandomArea,
            _ => Kind::EdgeRoot,
        }
    }

    pub fn schema(self, random: &mut Random) -> Schema {
        match self {
            Kind::History(size) | Kind::Damaged(size) => draw::schema(random, size),
            Kind::RandomArea | Kind::EdgeRoot => draw::schema(random, &SMALL),
            Kind::Full => full_schema(),
        }
    }

    pub fn name(self) -> &'static str {
        match self {
            Kind::History(_) => "sequence: history on a good base",
            Kind::Damaged(_) => "sequence: damaged areas and odd cursors",
            Kind::RandomArea => "sequence: areas of random words",
            Kind::EdgeRoot => "sequence: root near the rules' edges",
            Kind::Full => "sequence: a base filled to the last record and over",
        }
    }

    pub fn is_watched(self) -> bool {
        matches!(self, Kind::History(_) | Kind::Full)
    }

    pub fn work(self, random: &mut Random, schema: &Schema, trial: &mut Trial) -> Result<(), Halt> {
        let mut caller = Caller::new(random, schema);
        match self {
            Kind::History(_) => history(&mut caller, trial, 150),
            Kind::Damaged(_) => damaged(&mut caller, trial),
            Kind::RandomArea => random_area(&mut caller, trial),
            Kind::EdgeRoot => edges(&mut caller, trial),
            Kind::Full => full(&mut caller, trial),
        }
    }
}

/// Makes a base and does so many things with it.
fn history(caller: &mut Caller, trial: &mut Trial, acts: usize) -> Result<(), Halt> {
    begin(caller, trial)?;
    (0..acts).try_for_each(|_| caller.act(trial))
}

fn begin(caller: &mut Caller, trial: &mut Trial) -> Result<(), Halt> {
    trial.step(Step::Root(caller.schema.words()))?;
    trial.step(caller.roomy_buffer())?;
    trial.step(Step::Zeros(caller.schema.area_length()))?;
    trial.call(Call::New).map(drop)
}

/// Damages the area of a good base at a spot or a few, goes on with it for a while, and begins
/// again with the good area, or doesn't.
fn damaged(caller: &mut Caller, trial: &mut Trial) -> Result<(), Halt> {
    let acts = caller.random.between(10, 50);
    history(caller, trial, acts)?;
    caller.puts = caller.random.between(10, 40);
    let good = trial.state().area.clone();
    for _ in 0..15 {
        if caller.random.chance(70) {
            trial.step(Step::Area(good.clone()))?;
        }
        let (spot, spots): (Damage, _) = match caller.random.below(4) {
            0 => (damage_chain, caller.random.between(3, 12)),
            1 => (damage, caller.random.between(4, 8)),
            _ => (damage, caller.random.between(1, 3)),
        };
        for _ in 0..spots {
            trial.steps(spot(caller.random, caller.schema, &trial.state().area))?;
        }
        odd_calls(caller, trial, 6)?;
    }
    Ok(())
}

/// Draws damage at one spot of an area.
type Damage = fn(&mut Random, &Schema, &[u16]) -> Vec<Step>;

/// So many acts, some of them with odd cursors.
fn odd_calls(caller: &mut Caller, trial: &mut Trial, acts: usize) -> Result<(), Halt> {
    for _ in 0..acts {
        if caller.random.chance(20) {
            trial.step(odd_cursor(caller.random, caller.schema))?;
        }
        caller.act(trial)?;
    }
    Ok(())
}

fn random_area(caller: &mut Caller, trial: &mut Trial) -> Result<(), Halt> {
    let length = caller.schema.area_length();
    trial.step(Step::Root(caller.schema.words()))?;
    trial.step(caller.roomy_buffer())?;
    let junk = caller.random.chance(10);
    for _ in 0..4 {
        let area = if junk {
            Step::Junk(length, caller.random.next() >> 1)
        } else {
            Step::Area(plausible_area(caller.random, caller.schema))
        };
        trial.step(area)?;
        odd_calls(caller, trial, 8)?;
    }
    Ok(())
}

/// A few calls on each of some roots near the edges. The area fits the root if that is good and not
/// too large.
fn edges(caller: &mut Caller, trial: &mut Trial) -> Result<(), Halt> {
    trial.step(caller.roomy_buffer())?;
    for _ in 0..10 {
        let root = edge_root(caller.random, caller.schema);
        let right = model::area_length(&root).filter(|length| *length < 60_000);
        let right = right.unwrap_or_else(|| caller.schema.area_length());
        let length = caller.random.pick(&[right, right, right, right, right + 1, right - 1, 0]);
        trial.step(Step::Root(root))?;
        trial.step(Step::Junk(length, caller.random.next() >> 1))?;
        trial.call(Call::New)?;
        trial.step(Step::Reset)?;
        caller.act(trial)?;
        caller.odd_call(trial)?;
    }
    Ok(())
}

/// Capacity 4,095 throughout: lines with an automatic master and a sorted path, a manual master,
/// and a small detail more on the automatic master.
fn full_schema() -> Schema {
    let sets = vec![
        Set::new(AUTOMATIC, 4095, 1, &[1], &[]),
        Set::new(DETAIL, 4095, 0, &[1, 2], &[(1, 1, 2)]),
        Set::new(MANUAL, 4095, 3, &[3], &[]),
        Set::new(DETAIL, 3, 0, &[1], &[(1, 1, 0)]),
    ];
    Schema::new(&[(TYPE_K, 2), (TYPE_K, 1), (TYPE_X, 2)], sets)
}

fn full(caller: &mut Caller, trial: &mut Trial) -> Result<(), Halt> {
    begin(caller, trial)?;
    // Multiples of 3, which divides 4,095: three keys for an address, and every record is needed.
    for number in 1..=4097 {
        let sort = caller.random.word();
        trial.call(Call::Put { set: 2, entry: vec![0, 3 * number, sort] })?;
        trial.call(Call::Put { set: 3, entry: vec![number, caller.random.word()] })?;
    }
    trial.call(Call::Put { set: 4, entry: vec![0, 1] })?;
    trial.call(Call::Put { set: 4, entry: vec![0, 3] })?;
    for _ in 0..300 {
        let set = caller.random.pick(&[2, 3]);
        let record = caller.random.between(1, 4095) as u32;
        trial.call(Call::Get { set, mode: 4, record, value: Vec::new() })?;
        trial.call(Call::Delete { set })?;
    }
    // Long sorted chains, to the last record and over.
    for _ in 0..320 {
        let (key, sort) = (caller.random.between(1, 2) as u16, caller.random.below(100) as u16);
        trial.call(Call::Put { set: 2, entry: vec![0, key, sort] })?;
    }
    (0..50).try_for_each(|_| caller.act(trial))
}
