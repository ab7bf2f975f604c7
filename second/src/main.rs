//! The driver: runs the engine and the independent second program (`model`) side by side.
//!
//!     second replay FILE..                            known answers (exit 1 on a difference)
//!     second run --calls N --seed S [--seconds T]     random sequences (exit 1 on a difference)
//!     second rerun FILE                               shows both answers to each call of a file
//!     second faults                                   what a careless host may do
//!     second cases SCRIPT                             worked cases on the model (exit 1 on a difference)
//!
//! A bad command line gets one line on stderr and exit 2.

mod caller;
mod calls;
mod cases;
mod damage;
mod draw;
mod edges;
mod engine;
mod faults;
mod model;
mod pair;
mod random;
mod replay;
mod run;
mod schema;
mod sequences;
mod shrink;
mod tally;
mod trial;
mod watch;

use cases::Script;
use replay::Vectors;
use run::Options;
use std::process::ExitCode;

/// A command, read and found good.
enum Command {
    Replay(Vec<Vectors>),
    Run(Options),
    Rerun(Vec<calls::Step>),
    Faults,
    Cases(Script),
}

fn main() -> ExitCode {
    let args = std::env::args_os().skip(1).map(|arg| arg.into_string());
    let args = args.collect::<Result<Vec<String>, _>>();
    let command = match args {
        Ok(args) => read_command(&args),
        Err(arg) => Err(format!("{} isn't text", arg.display())),
    };
    match command {
        Err(why) => {
            eprintln!("second: {why}");
            ExitCode::from(2)
        }
        Ok(command) if work(&command) => ExitCode::SUCCESS,
        Ok(_) => ExitCode::from(1),
    }
}

fn read_command(args: &[String]) -> Result<Command, String> {
    const COMMANDS: &str = "replay, run, rerun, faults or cases";
    let (name, rest) = args.split_first().ok_or_else(|| format!("wants a command: {COMMANDS}"))?;
    match (name.as_str(), rest) {
        ("replay", []) => Err("replay wants files".into()),
        ("replay", files) => {
            let vectors = files.iter().map(|file| Vectors::load(file));
            Ok(Command::Replay(vectors.collect::<Result<_, _>>()?))
        }
        ("run", options) => Ok(Command::Run(read_options(options)?)),
        ("rerun", [file]) => Ok(Command::Rerun(replay::read_steps(file)?)),
        ("rerun", _) => Err("rerun wants one file".into()),
        ("faults", []) => Ok(Command::Faults),
        ("faults", _) => Err("faults wants nothing further".into()),
        ("cases", [script]) => Ok(Command::Cases(Script::load(script)?)),
        ("cases", _) => Err("cases wants one script".into()),
        _ => Err(format!("no command {name}: it is {COMMANDS}")),
    }
}

fn read_options(words: &[String]) -> Result<Options, String> {
    let (mut calls, mut seed, mut seconds) = (None, None, None);
    for pair in words.chunks(2) {
        let option = match pair[0].as_str() {
            "--calls" => &mut calls,
            "--seed" => &mut seed,
            "--seconds" => &mut seconds,
            other => return Err(format!("run has no option {other}")),
        };
        let least = u64::from(pair[0] != "--seed");
        let number = pair.get(1).and_then(|word| word.parse::<u64>().ok());
        let number = number.filter(|number| *number >= least);
        let number = number.ok_or_else(|| format!("{} wants a number from {least}", pair[0]))?;
        if option.replace(number).is_some() {
            return Err(format!("{} is given twice", pair[0]));
        }
    }
    let calls = calls.ok_or("run wants --calls N")?;
    let seed = seed.ok_or("run wants --seed S")?;
    Ok(Options { calls, seed, seconds })
}

/// Carries a command out; answers whether all is well.
fn work(command: &Command) -> bool {
    match command {
        Command::Replay(vectors) => vectors.iter().all(Vectors::replay),
        Command::Run(options) => run::run(options),
        Command::Rerun(steps) => replay::rerun(steps),
        Command::Cases(script) => script.work(),
        Command::Faults => match faults::faults() {
            Ok(made) => {
                println!("faults: {made} calls, all as they must be");
                true
            }
            Err(what) => {
                println!("faults: {what}");
                false
            }
        },
    }
}
