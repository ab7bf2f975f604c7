//! The benchmark: the engine beside the same work by hand-written Rust and by SQLite.
//!
//!     bench [table|growth] [--runs N]          the figures, medians over N runs (51)
//!     bench profile CASE ROOT SIDE BATCHES     one case on one side, for a profiler
//!
//! A bad command line gets one line on stderr and exit 2.

mod bases;
mod cases;
mod figures;
mod growth;
mod plain;
mod side;
#[cfg_attr(not(sqlite), path = "no_sqlite.rs")]
mod sqlite;
mod stand;

use cases::Case;
use figures::Figures;
use side::{Engine, Plain};
use stand::Stand;
use std::process::ExitCode;

enum Command {
    Table { runs: usize },
    Growth { runs: usize },
    Profile { case: Box<Case>, plain: bool, batches: usize },
}

fn main() -> ExitCode {
    let args = std::env::args_os().skip(1).map(|arg| arg.to_string_lossy().into_owned());
    let args: Vec<String> = args.collect();
    let words: Vec<&str> = args.iter().map(String::as_str).collect();
    match read_command(&words) {
        Err(why) => {
            eprintln!("bench: {why}");
            return ExitCode::from(2);
        }
        Ok(Command::Table { runs }) => table(runs),
        Ok(Command::Growth { runs }) => growth::print(runs),
        Ok(Command::Profile { case, plain: true, batches }) => {
            Stand::<Plain>::profile(&case, batches);
        }
        Ok(Command::Profile { case, plain: false, batches }) => {
            Stand::<Engine>::profile(&case, batches);
        }
    }
    ExitCode::SUCCESS
}

fn read_command(words: &[&str]) -> Result<Command, String> {
    match words {
        [] | ["table"] => Ok(Command::Table { runs: 51 }),
        ["growth"] => Ok(Command::Growth { runs: 51 }),
        ["--runs", count] | ["table", "--runs", count] => {
            Ok(Command::Table { runs: number("--runs", count)? })
        }
        ["growth", "--runs", count] => Ok(Command::Growth { runs: number("--runs", count)? }),
        ["profile", name, root, side, batches] => {
            let named = |case: &Case| case.name == *name && case.base.name == *root;
            let case = cases::table().into_iter().find(named);
            let case = case.ok_or_else(|| format!("the table has no case {name} on {root}"))?;
            let plain = match *side {
                "engine" => false,
                "rust" => true,
                _ => return Err(format!("no side {side}: it is engine or rust")),
            };
            let batches = number("the count of batches", batches)?;
            Ok(Command::Profile { case: Box::new(case), plain, batches })
        }
        [.., "--runs"] => Err("--runs wants a number from 1".into()),
        ["profile", ..] => Err("profile wants CASE ROOT SIDE BATCHES".into()),
        other => Err(format!("no command {}: it is table, growth or profile", other.join(" "))),
    }
}

fn number(what: &str, word: &str) -> Result<usize, String> {
    let number = word.parse().ok().filter(|number| *number >= 1);
    number.ok_or_else(|| format!("{what} wants a number from 1, not {word}"))
}

/// A figure with three digits that count.
pub fn digits(ns: f64) -> String {
    match ns {
        ..10.0 => format!("{ns:.2}"),
        10.0..100.0 => format!("{ns:.1}"),
        _ => format!("{ns:.0}"),
    }
}

/// Columns that every table has after its own: nanoseconds, and the two ratios.
pub const HEADS: &str = " engine ns |   Rust ns | of Rust |  SQLite ns | times faster";

pub fn columns(figures: &Figures) -> String {
    let Figures { engine, plain, of_plain, sqlite } = figures;
    let (sqlite, faster) = match sqlite {
        Some(beside) => (digits(beside.ns), digits(beside.times_faster)),
        None => ("-".into(), "-".into()),
    };
    let (engine, plain) = (digits(*engine), digits(*plain));
    format!(" {engine:>9} | {plain:>9} | {of_plain:>7.2} | {sqlite:>10} | {faster:>12}")
}

fn table(runs: usize) {
    println!("{:<29} | {:<15} |{HEADS}", "call", "root");
    println!("{:-<30}|{:-<17}|{:-<11}|{:-<11}|{:-<9}|{:-<12}|{:-<13}", "", "", "", "", "", "", "");
    for case in cases::table() {
        let figures = figures::measure(&case, runs);
        println!("{:<29} | {:<15} |{}", case.name, case.base.name, columns(&figures));
    }
    println!("\nmedians of {runs} runs in one process; SQLite {}", sqlite::version());
}
