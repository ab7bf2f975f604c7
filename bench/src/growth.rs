//! How the cost of a call grows: with the lines passed, the chain's length, the capacity and the
//! number of sets. One table for each; the sample base but where sets are counted.

use crate::bases;
use crate::cases::{self, thousands, Case, ROOM};
use crate::figures::measure;
use crate::{columns, HEADS};

/// A table with a row for each case; `count` is what grows.
fn section(title: &str, runs: usize, rows: Vec<(usize, Case)>) {
    println!("{title:<15} | {:<24} |{HEADS}", "call");
    println!("{:-<16}|{:-<26}|{:-<11}|{:-<11}|{:-<9}|{:-<12}|{:-<13}", "", "", "", "", "", "", "");
    for (count, case) in rows {
        let figures = measure(&case, runs);
        println!("{:>15} | {:<24} |{}", thousands(count), case.name, columns(&figures));
    }
    println!();
}

fn lines_passed() -> Vec<(usize, Case)> {
    let passed = [0, 10, 100, 1000, 4000];
    let case = |passed| {
        let mut case = cases::sorted_put(bases::sample(ROOM), 4030, passed, 60);
        case.name = "sorted put".into();
        (passed, case)
    };
    passed.into_iter().map(case).collect()
}

fn chain_length() -> Vec<(usize, Case)> {
    let lengths = [1, 10, 100, 1000, 4000];
    let find = |lines| (lines, cases::find_chain(bases::sample(ROOM), lines));
    let read = |lines| (lines, cases::chain(bases::sample(ROOM), lines));
    lengths.into_iter().map(find).chain(lengths.into_iter().map(read)).collect()
}

fn capacity() -> Vec<(usize, Case)> {
    let cases: [fn(u16) -> Case; 5] = [
        |room| cases::make(bases::sample(room), 50),
        |room| cases::key(bases::sample(room)),
        |room| cases::find(bases::sample(room)),
        |room| cases::master_put(bases::sample(room), 50),
        |room| cases::master_put(bases::sample(room), 99),
    ];
    let rooms = [101, 1021, 4095];
    let rows = cases.into_iter().flat_map(|case| rooms.map(|room| (usize::from(room), case(room))));
    rows.collect()
}

fn sets() -> Vec<(usize, Case)> {
    let counts = [3, 5, 8, 12, 16];
    let refused = |count| (count, cases::no_such_set(bases::with_sets(count)));
    let find = |count| (count, cases::find(bases::with_sets(count)));
    counts.into_iter().map(refused).chain(counts.into_iter().map(find)).collect()
}

pub fn print(runs: usize) {
    section("lines passed", runs, lines_passed());
    section("chain length", runs, chain_length());
    section("capacity", runs, capacity());
    section("sets (64 items)", runs, sets());
    println!("medians of {runs} runs in one process; capacity 4,095 where nothing else is said");
}
