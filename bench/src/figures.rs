//! A case on all sides: shown to be equal work, then timed in turn, run by run.

use crate::cases::Case;
use crate::side::{Engine, Plain};
use crate::sqlite;
use crate::stand::{Seen, Stand};
use std::time::Duration;

/// Nanoseconds a call and their ratios: medians over the runs, each by itself. A ratio compares
/// times of one run, so a machine that is slower for a while does not bend it.
pub struct Figures {
    pub engine: f64,
    pub plain: f64,
    pub of_plain: f64,
    pub sqlite: Option<Beside>,
}

pub struct Beside {
    pub ns: f64,
    pub times_faster: f64,
}

/// What a side is timed for in one run, at least.
const RUN: Duration = Duration::from_millis(1);

fn median(figures: impl IntoIterator<Item = f64>) -> f64 {
    let mut figures: Vec<f64> = figures.into_iter().collect();
    figures.sort_by(f64::total_cmp);
    figures[figures.len() / 2]
}

/// The times of all runs: engine, Rust, and SQLite where it has something to do.
#[derive(Default)]
struct Times {
    engine: Vec<f64>,
    plain: Vec<f64>,
    sqlite: Vec<f64>,
}

impl Times {
    fn figures(&self) -> Figures {
        let ratios = |over: &[f64], under: &[f64]| {
            median(over.iter().zip(under).map(|(over, under)| over / under))
        };
        let Times { engine, plain, sqlite } = self;
        Figures {
            engine: median(engine.iter().copied()),
            plain: median(plain.iter().copied()),
            of_plain: ratios(engine, plain),
            sqlite: (!sqlite.is_empty()).then(|| Beside {
                ns: median(sqlite.iter().copied()),
                times_faster: ratios(sqlite, engine),
            }),
        }
    }
}

/// The entries that a reading batch handed over, as long as the status says.
fn entries(seen: &[Seen]) -> Vec<&[u16]> {
    seen.iter().map(|seen| &seen.buffer[..usize::from(seen.status[1])]).collect()
}

/// Every side is timed once in each run, so that what else the machine does falls on all of them.
pub fn measure(case: &Case, runs: usize) -> Figures {
    let (mut engine, mut plain) = (Stand::<Engine>::new(case), Stand::<Plain>::new(case));
    let (seen, area) = engine.observe();
    let (same, same_area) = plain.observe();
    assert!(seen == same, "{}: the sides answer differently", case.name);
    assert!(area == same_area, "{}: the areas differ", case.name);
    let mut sqlite = sqlite::Stand::new(case);
    if let Some(sqlite) = &mut sqlite {
        sqlite.check(&entries(&seen));
    }
    let mut times = Times::default();
    for _ in 0..runs {
        times.engine.push(engine.run(RUN));
        times.plain.push(plain.run(RUN));
        times.sqlite.extend(sqlite.as_mut().map(|sqlite| sqlite.run(RUN)));
    }
    assert!(engine.area_after() == area, "{}: the area has drifted", case.name);
    assert!(plain.area_after() == area, "{}: the area has drifted", case.name);
    times.figures()
}
