//! Makes a sequence that shows trouble shorter.

use crate::calls::Step;
use crate::schema::Schema;
use crate::trial::Bench;
use std::time::{Duration, Instant};

/// No sequence is worth more time than this.
const PATIENCE: Duration = Duration::from_secs(60);

/// The steps up to the first call that shows trouble, and what it is.
fn up_to_trouble(mut steps: Vec<Step>, watched: Option<&Schema>) -> Option<(Vec<Step>, String)> {
    let mut bench = Bench::new(watched);
    let trouble = |(at, step)| bench.step(step).err().map(|what| (at, what));
    let (at, what) = steps.iter().enumerate().find_map(trouble)?;
    steps.truncate(at + 1);
    Some((steps, what))
}

/// Drops as many steps as it can, the last one kept, so that trouble still comes. First in large
/// pieces, at last one by one.
pub fn shrink(steps: &[Step], watched: Option<&Schema>) -> (Vec<Step>, String) {
    let began = Instant::now();
    let found = up_to_trouble(steps.to_vec(), watched);
    let Some((mut best, mut what)) = found else {
        return (steps.to_vec(), "it didn't come again".into());
    };
    let mut piece = best.len();
    while piece > 0 {
        let mut at = 0;
        let before = best.len();
        while at + 1 < best.len() && began.elapsed() < PATIENCE {
            let end = (at + piece).min(best.len() - 1);
            let rest = [&best[..at], &best[end..]].concat();
            match up_to_trouble(rest, watched) {
                Some(shorter) => (best, what) = shorter,
                None => at += piece,
            }
        }
        // One by one until nothing goes any more.
        piece = if piece == 1 && best.len() < before { 1 } else { piece / 2 };
    }
    (best, what)
}
