//! Holds the hand-written Rust that the engine is measured against to the engine: the driver of
//! the second program, with that Rust in the place of its model. A figure means something only if
//! both sides do the same work on every kind of call.
//!
//!     check FILE..     known answers, then a million random calls (exit 1 on a difference)

// The driver is compiled as it stands, and not all of it is needed here.
#![allow(dead_code)]

#[path = "../../second/src/caller.rs"]
mod caller;
#[path = "../../second/src/calls.rs"]
mod calls;
#[path = "../../second/src/damage.rs"]
mod damage;
#[path = "../../second/src/draw.rs"]
mod draw;
#[path = "../../second/src/edges.rs"]
mod edges;
#[path = "../../second/src/engine.rs"]
mod engine;
#[path = "as_model.rs"]
mod model;
#[path = "../../second/src/pair.rs"]
mod pair;
mod plain;
#[path = "../../second/src/random.rs"]
mod random;
#[path = "../../second/src/replay.rs"]
mod replay;
#[path = "../../second/src/run.rs"]
mod run;
#[path = "../../second/src/schema.rs"]
mod schema;
#[path = "../../second/src/sequences.rs"]
mod sequences;
#[path = "../../second/src/shrink.rs"]
mod shrink;
#[path = "../../second/src/tally.rs"]
mod tally;
#[path = "../../second/src/trial.rs"]
mod trial;
#[path = "../../second/src/watch.rs"]
mod watch;

use replay::Vectors;
use std::process::ExitCode;

const CALLS: u64 = 1_000_000;
const SEED: u64 = 1;

fn main() -> ExitCode {
    let vectors: Result<Vec<Vectors>, String> =
        std::env::args().skip(1).map(|file| Vectors::load(&file)).collect();
    let vectors = match vectors {
        Ok(vectors) => vectors,
        Err(why) => {
            eprintln!("check: {why}");
            return ExitCode::from(2);
        }
    };
    let options = run::Options { calls: CALLS, seed: SEED, seconds: None };
    let equal = vectors.iter().all(Vectors::replay) && run::run(&options);
    ExitCode::from(u8::from(!equal))
}
