//! A case set up on one side: batches of its calls, timed, with the area put back between them.

use crate::cases::{Calls, Case, Rows};
use crate::plain::Wanted;
use crate::side::{Host, Side};
use std::marker::PhantomData;
use std::ops::Range;
use std::time::{Duration, Instant};

/// What a caller sees after a call.
#[derive(PartialEq, Eq)]
pub struct Seen {
    pub status: [u16; 10],
    pub passed: [u16; 4],
    pub cursors: [u32; 64],
    pub buffer: Vec<u16>,
}

pub struct Stand<'c, S> {
    case: &'c Case,
    host: Host,
    /// Area and cursors before a batch, and the parts of the area that a batch changes.
    area: Vec<u16>,
    cursors: [u32; 64],
    changed: Vec<Range<usize>>,
    side: PhantomData<S>,
}

/// Makes a call with each row; `seen` looks at the host after each.
fn each(
    host: &mut Host,
    rows: &Rows,
    mut seen: impl FnMut(&Host),
    call: impl Fn(&mut Host, &[u16]),
) {
    for row in rows.iter() {
        call(host, row);
        seen(host);
    }
}

/// Makes the calls of a batch; `seen` looks at the host after each.
fn work<S: Side>(host: &mut Host, calls: &Calls, mut seen: impl FnMut(&Host)) {
    let current = |set: u16| 4 * (usize::from(set) - 1);
    match calls {
        Calls::Make(times) => (0..*times).for_each(|_| {
            S::make(host);
            seen(host);
        }),
        Calls::Find { set, item, values } => {
            each(host, values, seen, |host, value| S::find(host, *set, *item, value));
        }
        Calls::Chain { set, lines, .. } => (0..*lines).for_each(|_| {
            S::get(host, *set, Wanted { mode: 5, record: 0, value: &[] });
            seen(host);
        }),
        Calls::Key { set, values } => each(host, values, seen, |host, value| {
            S::get(host, *set, Wanted { mode: 7, record: 0, value });
        }),
        Calls::Put { set, entries } => {
            each(host, entries, seen, |host, entry| S::put(host, *set, entry));
        }
        Calls::Update { set, record, entries } => {
            host.cursors[current(*set)] = *record;
            each(host, entries, seen, |host, entry| S::update(host, *set, entry));
        }
        Calls::Delete { set, records } => records.iter().for_each(|record| {
            host.cursors[current(*set)] = *record;
            S::delete(host, *set);
            seen(host);
        }),
    }
}

/// The parts of two areas that differ, in blocks of a few cache lines.
fn differences(one: &[u16], other: &[u16]) -> Vec<Range<usize>> {
    const BLOCK: usize = 64;
    let starts = (0..one.len()).step_by(BLOCK);
    let blocks = starts.map(|start| start..one.len().min(start + BLOCK));
    blocks.filter(|block| one[block.clone()] != other[block.clone()]).collect()
}

impl<'c, S: Side> Stand<'c, S> {
    /// The base as the case has it before its calls.
    pub fn new(case: &'c Case) -> Self {
        let mut host = Host::new(&case.base.root());
        S::make(&mut host);
        for (set, entry) in &case.before {
            S::put(&mut host, *set, entry);
            assert_eq!(host.status[0], 0, "{}: an entry that stands before is refused", case.name);
        }
        host.cursors = [0; 64];
        if let Calls::Chain { set, item, value, .. } = &case.calls {
            S::find(&mut host, *set, *item, value);
        }
        let (area, cursors) = (host.area.clone(), host.cursors);
        Stand { case, host, area, cursors, changed: Vec::new(), side: PhantomData }
    }

    /// What is seen after each call of a batch, and the area at its end. Must be asked first: it
    /// learns what a batch changes.
    pub fn observe(&mut self) -> (Vec<Seen>, Vec<u16>) {
        let mut all = Vec::new();
        work::<S>(&mut self.host, &self.case.calls, |host| {
            let Host { status, passed, cursors, buffer, .. } = host.clone();
            all.push(Seen { status, passed, cursors, buffer });
        });
        self.changed = differences(&self.host.area, &self.area);
        let area = self.host.area.clone();
        self.restore();
        (all, area)
    }

    fn restore(&mut self) {
        for part in &self.changed {
            self.host.area[part.clone()].copy_from_slice(&self.area[part.clone()]);
        }
        self.host.cursors = self.cursors;
    }

    /// One batch: its time, with every condition word as it must be.
    fn batch(&mut self) -> Duration {
        let expected = self.case.condition as u16;
        let mut wrong = 0;
        let start = Instant::now();
        work::<S>(&mut self.host, &self.case.calls, |host| wrong |= host.status[0] ^ expected);
        let time = start.elapsed();
        assert_eq!(wrong, 0, "{}: another condition word", self.case.name);
        time
    }

    /// Batches until this much time is measured; nanoseconds a call.
    pub fn run(&mut self, least: Duration) -> f64 {
        let (mut time, mut calls) = (Duration::ZERO, 0);
        while time < least {
            time += self.batch();
            calls += self.case.calls.count();
            self.restore();
        }
        time.as_secs_f64() * 1e9 / calls as f64
    }

    /// So many batches, for a profiler to look at.
    pub fn profile(case: &'c Case, batches: usize) {
        let mut stand = Self::new(case);
        stand.observe();
        for _ in 0..batches {
            stand.batch();
            stand.restore();
        }
    }

    /// The area after one batch more, to be held against the other side's.
    pub fn area_after(&mut self) -> Vec<u16> {
        self.batch();
        let area = self.host.area.clone();
        self.restore();
        area
    }
}
