//! Counts of calls and condition words, the run's limits, and the progress line.

use crate::calls::NAMES;
use std::collections::BTreeMap;
use std::time::{Duration, Instant};

/// 0, and every number of document 01's table of condition words, in its order.
const CONDITIONS: [i16; 31] = [
    0, -91, -92, -21, -93, -24, -31, -52, -95, -94, 50, 17, 10, 11, 12, 13, 14, 15, 41, 43, 16, 44,
    101, 102, 103, 104, 301, 302, 303, 304, 18,
];

pub struct Tally {
    limit: u64,
    deadline: Option<Duration>,
    began: Instant,
    shown: Duration,
    calls: u64,
    is_late: bool,
    /// How often each condition word was answered, by call.
    conditions: BTreeMap<i16, [u64; 6]>,
    /// How many sequences there were of each kind, and how many bases at each limit.
    sequences: BTreeMap<&'static str, u64>,
}

impl Tally {
    pub fn new(limit: u64, seconds: Option<u64>) -> Tally {
        Tally {
            limit,
            deadline: seconds.map(Duration::from_secs),
            began: Instant::now(),
            shown: Duration::ZERO,
            calls: 0,
            is_late: false,
            conditions: BTreeMap::new(),
            sequences: BTreeMap::new(),
        }
    }

    pub fn calls(&self) -> u64 {
        self.calls
    }

    pub fn seconds(&self) -> f64 {
        self.began.elapsed().as_secs_f64()
    }

    pub fn is_over(&self) -> bool {
        self.calls >= self.limit || self.is_late
    }

    pub fn count(&mut self, call: usize, condition: i16) {
        self.conditions.entry(condition).or_default()[call] += 1;
        self.calls += 1;
        if self.calls.is_multiple_of(64) {
            self.look_at_clock();
        }
    }

    /// Notes what a sequence is.
    pub fn note(&mut self, what: &'static str) {
        *self.sequences.entry(what).or_default() += 1;
    }

    /// Shows a line about every second, and sees when time is up.
    fn look_at_clock(&mut self) {
        let now = self.began.elapsed();
        self.is_late = self.deadline.is_some_and(|deadline| now >= deadline);
        if now >= self.shown + Duration::from_secs(1) {
            self.shown = now;
            eprintln!("{} calls in {:.0} s, no difference", self.calls, now.as_secs_f64());
        }
    }

    /// The numbers of document 01's table that no call has answered.
    pub fn missing(&self) -> Vec<i16> {
        CONDITIONS.into_iter().filter(|number| !self.conditions.contains_key(number)).collect()
    }

    /// How many sequences there were of each kind, and how many bases at each limit.
    pub fn sequences(&self) -> String {
        let lines = self.sequences.iter().map(|(what, count)| format!("{count:>8}  {what}"));
        lines.collect::<Vec<_>>().join("\n")
    }

    /// How often each call answered each condition word.
    pub fn table(&self) -> String {
        let mut table = format!("{:>6}", "word");
        NAMES.iter().for_each(|name| table += &format!("{name:>10}"));
        for number in CONDITIONS {
            let counts = self.conditions.get(&number).copied().unwrap_or_default();
            table += &format!("\n{number:>6}");
            for count in counts {
                table += &if count == 0 { format!("{:>10}", "-") } else { format!("{count:>10}") };
            }
        }
        table
    }
}
