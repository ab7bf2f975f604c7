//! The cases: a base as it stands before, and a batch of calls of one kind.

use crate::bases::{self, Base, Line};

/// Entries or values of one length, one after the other.
#[derive(Clone)]
pub struct Rows {
    length: usize,
    words: Vec<u16>,
}

impl Rows {
    pub fn new(rows: impl IntoIterator<Item = Vec<u16>>) -> Rows {
        let rows: Vec<Vec<u16>> = rows.into_iter().collect();
        let length = rows[0].len();
        assert!(rows.iter().all(|row| row.len() == length));
        Rows { length, words: rows.concat() }
    }

    pub fn iter(&self) -> std::slice::ChunksExact<'_, u16> {
        self.words.chunks_exact(self.length)
    }

    pub fn count(&self) -> usize {
        self.words.len() / self.length
    }
}

/// The calls of a batch.
pub enum Calls {
    /// So many times.
    Make(usize),
    Find {
        set: u16,
        item: u16,
        values: Rows,
    },
    /// So many lines read forward, after a find outside the clock.
    Chain {
        set: u16,
        item: u16,
        value: Vec<u16>,
        lines: usize,
    },
    Key {
        set: u16,
        values: Rows,
    },
    Put {
        set: u16,
        entries: Rows,
    },
    /// The record with this number, over and over.
    Update {
        set: u16,
        record: u32,
        entries: Rows,
    },
    /// The records with these numbers.
    Delete {
        set: u16,
        records: Vec<u32>,
    },
}

impl Calls {
    /// How many calls the time of a batch is divided by.
    pub fn count(&self) -> usize {
        match self {
            Calls::Make(times) => *times,
            Calls::Find { values, .. } | Calls::Key { values, .. } => values.count(),
            Calls::Chain { lines, .. } => *lines,
            Calls::Put { entries, .. } | Calls::Update { entries, .. } => entries.count(),
            Calls::Delete { records, .. } => records.len(),
        }
    }
}

pub struct Case {
    pub name: String,
    pub base: Base,
    /// What is put into the new base before: set and entry.
    pub before: Vec<(u16, Vec<u16>)>,
    pub calls: Calls,
    /// The condition word that each call must answer.
    pub condition: i16,
}

/// Pseudo-random numbers, the same in every run.
pub struct Random(u64);

impl Random {
    pub fn new(seed: u64) -> Random {
        Random(seed)
    }

    pub fn below(&mut self, limit: u32) -> u32 {
        self.0 = self.0.wrapping_mul(6364136223846793005).wrapping_add(1442695040888963407);
        ((self.0 >> 33) * u64::from(limit) >> 31) as u32
    }

    pub fn shuffle<T>(&mut self, list: &mut [T]) {
        for at in (1..list.len()).rev() {
            list.swap(at, self.below(at as u32 + 1) as usize);
        }
    }

    /// Different numbers from 1 to 60,000, in no order: they fit any key.
    pub fn numbers(&mut self, count: usize) -> Vec<u32> {
        let mut numbers: Vec<u32> = (1..=60_000).collect();
        self.shuffle(&mut numbers);
        numbers.truncate(count);
        numbers
    }
}

/// The capacity that the cases ask for: the most there is.
pub const ROOM: u16 = 4095;

/// The capacity of the largest root's sets that no case uses, and of all its sets for a make.
const OTHERS: u16 = 101;

/// Keys of the third and fourth path's masters, in a base with four paths.
const THIRDS: u32 = 50;

/// The accounts, and entries for the third and fourth path.
fn masters(base: &Base, accounts: &[u32]) -> Vec<(u16, Vec<u16>)> {
    let mut before: Vec<(u16, Vec<u16>)> =
        accounts.iter().map(|&number| (base.accounts, base.account(number))).collect();
    for path in base.set(base.lines).paths.iter().skip(2) {
        before.extend((1..=THIRDS).map(|key| (path[0], base.master_entry(path[0], key))));
    }
    before
}

fn line(base: &Base, account: u32, date: u32) -> Vec<u16> {
    let third = 1 + (account + date) % THIRDS;
    let fourth = 1 + (7 * account + date) % THIRDS;
    base.line(Line { account, date, third, fourth, filler: date % 100 })
}

/// One account with a chain of so many lines of the dates 1 upward, put in no order, so that the
/// chain goes to and fro in the area as it does in use; and ten other accounts.
fn one_chain(base: &Base, lines: usize) -> Vec<(u16, Vec<u16>)> {
    let accounts: Vec<u32> = (1..=11).collect();
    let mut before = masters(base, &accounts);
    let mut dates: Vec<u32> = (1..=lines as u32).collect();
    Random::new(5).shuffle(&mut dates);
    before.extend(dates.iter().map(|&date| (base.lines, line(base, 1, date))));
    before
}

pub fn make(base: Base, times: usize) -> Case {
    let (before, calls) = (Vec::new(), Calls::Make(times));
    Case { name: "make".into(), base, before, calls, condition: 0 }
}

/// Finds of accounts in no order, a master half full of them, with a line or two each.
pub fn find(base: Base) -> Case {
    let half = usize::from(base.set(base.accounts).capacity) / 2;
    let accounts = Random::new(1).numbers(half);
    let mut before = masters(&base, &accounts);
    let dates = (1..).map(|n| 1 + n % 60);
    before.extend(accounts.iter().zip(dates).map(|(&a, date)| (base.lines, line(&base, a, date))));
    let mut wanted = accounts;
    Random::new(2).shuffle(&mut wanted);
    wanted.truncate(500);
    let item = base.account_item();
    let values = Rows::new(wanted.iter().map(|&account| base.words(item, account)));
    let calls = Calls::Find { set: base.lines, item, values };
    Case { name: "find".into(), base, before, calls, condition: 0 }
}

/// A chain read from its first line to its last.
pub fn chain(base: Base, lines: usize) -> Case {
    let before = one_chain(&base, lines);
    let item = base.account_item();
    let value = base.words(item, 1);
    let calls = Calls::Chain { set: base.lines, item, value, lines };
    Case { name: "chained read of a line".into(), base, before, calls, condition: 0 }
}

/// The find of a chain of so many lines.
pub fn find_chain(base: Base, lines: usize) -> Case {
    let before = one_chain(&base, lines);
    let item = base.account_item();
    let values = Rows::new((0..100).map(|_| base.words(item, 1)));
    let calls = Calls::Find { set: base.lines, item, values };
    Case { name: "find".into(), base, before, calls, condition: 0 }
}

pub fn key(base: Base) -> Case {
    let Case { base, before, calls, condition, .. } = find(base);
    let Calls::Find { values, .. } = calls else { unreachable!("a find") };
    let calls = Calls::Key { set: base.accounts, values };
    Case { name: "get by key".into(), base, before, calls, condition }
}

/// Lines that each pass so many of a chain: lines of one date do not pass each other.
pub fn sorted_put(base: Base, lines: usize, passed: usize, puts: usize) -> Case {
    let before = one_chain(&base, lines);
    let date = (lines - passed) as u32;
    let entries = Rows::new((0..puts).map(|_| line(&base, 1, date)));
    let calls = Calls::Put { set: base.lines, entries };
    let name = format!("sorted put, {} passed", thousands(passed));
    Case { name, base, before, calls, condition: 0 }
}

/// Accounts with ten lines each, and lines of later dates, each of which brings its date's entry
/// into the automatic master.
fn later_lines(base: &Base) -> (Vec<(u16, Vec<u16>)>, Vec<Vec<u16>>) {
    let accounts = Random::new(3).numbers(100);
    let mut before = masters(base, &accounts);
    let mut old: Vec<(u32, u32)> =
        accounts.iter().flat_map(|&account| (1..=10).map(move |date| (account, date))).collect();
    Random::new(4).shuffle(&mut old);
    before.extend(old.iter().map(|&(account, date)| (base.lines, line(base, account, date))));
    let new = (0..300).map(|n| line(base, accounts[n % 100], 1000 + 3 * n as u32)).collect();
    (before, new)
}

pub fn put_line(base: Base) -> Case {
    let (before, new) = later_lines(&base);
    let calls = Calls::Put { set: base.lines, entries: Rows::new(new) };
    Case { name: "put of a line, four paths".into(), base, before, calls, condition: 0 }
}

/// A line's items that may change do.
pub fn update(base: Base) -> Case {
    let before = one_chain(&base, 10);
    let lines = before.iter().filter(|(set, _)| *set == base.lines);
    let at_first = line(&base, 1, 1);
    let record = 1 + lines.clone().position(|(_, entry)| *entry == at_first).expect("date 1");
    let (third, fourth) = (3, 9);
    let changed = |filler| base.line(Line { account: 1, date: 1, third, fourth, filler });
    assert_eq!(changed(1), at_first);
    let entries = Rows::new((1..=300).map(changed));
    let calls = Calls::Update { set: base.lines, record: record as u32, entries };
    Case { name: "update of a line".into(), base, before, calls, condition: 0 }
}

pub fn delete_line(base: Base) -> Case {
    let (mut before, new) = later_lines(&base);
    let old = before.iter().filter(|(set, _)| *set == base.lines).count() as u32;
    let mut records: Vec<u32> = (1..=new.len() as u32).map(|n| old + n).collect();
    Random::new(6).shuffle(&mut records);
    before.extend(new.into_iter().map(|entry| (base.lines, entry)));
    let calls = Calls::Delete { set: base.lines, records };
    Case { name: "delete of a line, four paths".into(), base, before, calls, condition: 0 }
}

/// Accounts put into a master that is so full.
pub fn master_put(base: Base, percent: usize) -> Case {
    let capacity = usize::from(base.set(base.accounts).capacity);
    let there = capacity * percent / 100;
    let puts = (capacity - there).clamp(1, 40);
    let numbers = Random::new(7).numbers(there + puts);
    let (old, new) = numbers.split_at(there);
    let before = old.iter().map(|&number| (base.accounts, base.account(number))).collect();
    let entries = Rows::new(new.iter().map(|&number| base.account(number)));
    let calls = Calls::Put { set: base.accounts, entries };
    Case { name: format!("master put, {percent} % full"), base, before, calls, condition: 0 }
}

/// Lines for accounts that are not there: refused on path 1.
pub fn refused_first(base: Base) -> Case {
    let (before, _) = later_lines(&base);
    let present = Random::new(3).numbers(400);
    let absent = present[100..].iter();
    let entries = Rows::new(absent.map(|&account| line(&base, account, 2000)));
    let calls = Calls::Put { set: base.lines, entries };
    Case { name: "refused put, 101".into(), base, before, calls, condition: 101 }
}

/// Lines whose fourth master has no entry: three paths are written, and undone.
pub fn refused_fourth(base: Base) -> Case {
    let (before, _) = later_lines(&base);
    let accounts = Random::new(3).numbers(100);
    let lines = (0..300).map(|n| {
        let (account, date) = (accounts[n % 100], 1000 + 3 * n as u32);
        let (third, fourth) = (1 + n as u32 % THIRDS, THIRDS + 1 + n as u32);
        base.line(Line { account, date, third, fourth, filler: 1 })
    });
    let calls = Calls::Put { set: base.lines, entries: Rows::new(lines) };
    Case { name: "refused put, 104".into(), base, before, calls, condition: 104 }
}

/// A call that is refused as soon as the root and the area's length are known to be good.
pub fn no_such_set(base: Base) -> Case {
    let calls = Calls::Put { set: 17, entries: Rows::new((0..300).map(|_| vec![0])) };
    Case { name: "refused put, -21".into(), base, before: Vec::new(), calls, condition: -21 }
}

/// 1,000 with its comma.
pub fn thousands(number: usize) -> String {
    match number {
        0..=999 => number.to_string(),
        _ => format!("{},{:03}", number / 1000, number % 1000),
    }
}

/// The rows of the table.
pub fn table() -> Vec<Case> {
    let mut cases = vec![make(bases::smallest(), 2000), make(bases::largest(OTHERS, OTHERS), 50)];
    let sample = || bases::sample(ROOM);
    let four = || bases::sample_four(ROOM);
    let largest = || bases::largest(ROOM, OTHERS);
    cases.extend([find(sample()), find(largest())]);
    cases.extend([chain(sample(), 1000), chain(largest(), 1000)]);
    cases.extend([key(sample()), key(largest())]);
    for (passed, puts) in [(0, 400), (10, 400), (1000, 100)] {
        cases.push(sorted_put(sample(), 1100, passed, puts));
        cases.push(sorted_put(largest(), 1100, passed, puts));
    }
    cases.extend([put_line(four()), put_line(largest())]);
    cases.extend([update(sample()), update(largest())]);
    cases.extend([delete_line(four()), delete_line(largest())]);
    for percent in [50, 99] {
        cases.extend([master_put(sample(), percent), master_put(largest(), percent)]);
    }
    cases.extend([refused_first(sample()), refused_first(largest())]);
    cases.extend([refused_fourth(four()), refused_fourth(largest())]);
    cases.extend([no_such_set(sample()), no_such_set(largest())]);
    cases
}
