//! The bases that are measured: their roots, and entries for their sets.

/// Type and length of an item.
#[derive(Clone, Copy)]
pub struct Item {
    pub kind: u16,
    pub length: u16,
}

const fn i(length: u16) -> Item {
    Item { kind: 1, length }
}

const fn k(length: u16) -> Item {
    Item { kind: 2, length }
}

const fn x(length: u16) -> Item {
    Item { kind: 3, length }
}

pub const MANUAL: u16 = 1;
pub const AUTOMATIC: u16 = 2;
pub const DETAIL: u16 = 3;

/// A set as the root describes it; a path is master, search item, sort item.
#[derive(Clone)]
pub struct Set {
    pub kind: u16,
    pub capacity: u16,
    pub key: u16,
    pub items: Vec<u16>,
    pub paths: Vec<[u16; 3]>,
}

/// A base as the cases see it: accounts, and lines that path 1 chains to an account by date.
#[derive(Clone)]
pub struct Base {
    pub name: &'static str,
    pub items: Vec<Item>,
    pub sets: Vec<Set>,
    /// Numbers of the sets of accounts and of lines.
    pub accounts: u16,
    pub lines: u16,
}

/// What a line says, as far as a case cares: the numbers of its search items and its date.
#[derive(Clone, Copy, Default)]
pub struct Line {
    pub account: u32,
    pub date: u32,
    /// Search items of paths 3 and 4, where there are such.
    pub third: u32,
    pub fourth: u32,
    /// Every other item.
    pub filler: u32,
}

fn master(kind: u16, capacity: u16, items: &[u16]) -> Set {
    Set { kind, capacity, key: items[0], items: items.to_vec(), paths: Vec::new() }
}

fn detail(capacity: u16, items: &[u16], paths: &[[u16; 3]]) -> Set {
    Set { kind: DETAIL, capacity, key: 0, items: items.to_vec(), paths: paths.to_vec() }
}

/// The sample base of document 01 with other capacities: accounts, dates, lines.
pub fn sample(capacity: u16) -> Base {
    Base {
        name: "sample",
        items: vec![k(1), k(1), i(1), x(2)],
        sets: vec![
            master(MANUAL, capacity, &[1, 4]),
            master(AUTOMATIC, capacity, &[2]),
            detail(capacity, &[1, 2, 3], &[[1, 1, 2], [2, 2, 0]]),
        ],
        accounts: 1,
        lines: 3,
    }
}

/// The sample base as document 01 has it.
pub fn smallest() -> Base {
    let mut base = sample(5);
    base.sets[2].capacity = 4;
    base
}

/// The sample base with two further manual masters, so that a line is on four paths.
pub fn sample_four(capacity: u16) -> Base {
    let mut base = sample(capacity);
    base.name = "sample, 4 paths";
    base.sets[2] = detail(capacity, &[1, 2, 3, 4], &[[1, 1, 2], [2, 2, 0], [4, 3, 0], [5, 4, 0]]);
    base.sets.push(master(MANUAL, capacity, &[3]));
    base.sets.push(master(MANUAL, capacity, &[4]));
    base
}

/// Items of the largest root: the keys of masters 1 to 8, then what fills the entries.
fn many_items() -> Vec<Item> {
    let keys = [x(4), k(2), x(8), i(2), x(2), k(1), k(2), k(1)];
    let fillers = [i(1), k(2), x(2), x(4), i(2), k(1), x(8)];
    keys.into_iter().chain(fillers.into_iter().cycle()).take(64).collect()
}

/// So many items from 9 upward, beginning at another one for each set.
fn filler_items(set: u16, count: u16) -> impl Iterator<Item = u16> {
    (0..count).map(move |n| 9 + (7 * set + n) % 56)
}

/// The largest root: 64 items and 16 sets; six manual and two automatic masters, eight details
/// of four paths each, and every set but the automatic ones with 16 items.
pub fn largest(capacity: u16, others: u16) -> Base {
    let mut sets = Vec::new();
    for number in 1..=8 {
        let room = if [1, 2, 3, 7].contains(&number) { capacity } else { others };
        let kind = if number < 7 { MANUAL } else { AUTOMATIC };
        let fillers = filler_items(number, if number < 7 { 15 } else { 0 });
        let items: Vec<u16> = [number].into_iter().chain(fillers).collect();
        sets.push(master(kind, room, &items));
    }
    for number in 9..=16 {
        let room = if number == 15 { capacity } else { others };
        let (keys, paths) = match number % 2 {
            1 => ([1, 7, 2, 3], [[1, 1, 7], [7, 7, 0], [2, 2, 0], [3, 3, 0]]),
            _ => ([4, 8, 5, 6], [[4, 4, 8], [8, 8, 0], [5, 5, 0], [6, 6, 0]]),
        };
        let items: Vec<u16> = keys.into_iter().chain(filler_items(number, 12)).collect();
        sets.push(detail(room, &items, &paths));
    }
    Base { name: "largest", items: many_items(), sets, accounts: 1, lines: 15 }
}

/// The sample base and further sets of 16 items: in turn a manual master, and a detail with four
/// paths to it.
pub fn with_sets(count: usize) -> Base {
    let mut base = sample(101);
    base.items.resize(64, k(1));
    for number in 4..=count as u16 {
        let items: Vec<u16> = (0..16).map(|n| 5 + (5 * number + n) % 60).collect();
        let to = number - 1;
        base.sets.push(match number % 2 {
            0 => master(MANUAL, 101, &items),
            _ => {
                let paths: Vec<[u16; 3]> = items[..4].iter().map(|&item| [to, item, 0]).collect();
                detail(101, &items, &paths)
            }
        });
    }
    base
}

impl Base {
    pub fn root(&self) -> Vec<u16> {
        let mut root = vec![self.items.len() as u16, self.sets.len() as u16];
        root.extend(self.items.iter().flat_map(|item| [item.kind, item.length]));
        for set in &self.sets {
            let (items, paths) = (set.items.len() as u16, set.paths.len() as u16);
            let start = root.len();
            root.extend([set.kind, set.capacity, items, set.key, paths]);
            root.extend(&set.items);
            root.resize(start + 21, 0);
            root.extend(set.paths.iter().flatten());
            root.resize(start + 33, 0);
        }
        root
    }

    pub fn set(&self, number: u16) -> &Set {
        &self.sets[usize::from(number) - 1]
    }

    pub fn item(&self, number: u16) -> Item {
        self.items[usize::from(number) - 1]
    }

    /// A number as an item's words: high word first, or digits.
    pub fn words(&self, item: u16, number: u32) -> Vec<u16> {
        let Item { kind, length } = self.item(item);
        match (kind, length) {
            (3, _) => {
                let digits = format!("{number:0width$}", width = 2 * usize::from(length));
                let from = digits.len() - 2 * usize::from(length);
                let pairs = digits.as_bytes()[from..].as_chunks().0;
                pairs.iter().map(|&pair| u16::from_be_bytes(pair)).collect()
            }
            (_, 1) => vec![number as u16],
            _ => vec![(number >> 16) as u16, number as u16],
        }
    }

    fn entry(&self, set: u16, number_of: impl Fn(u16) -> u32) -> Vec<u16> {
        let items = self.set(set).items.iter();
        items.flat_map(|&item| self.words(item, number_of(item))).collect()
    }

    pub fn account_item(&self) -> u16 {
        self.set(self.accounts).key
    }

    pub fn account(&self, number: u32) -> Vec<u16> {
        self.master_entry(self.accounts, number)
    }

    /// An entry of a manual master: its key, and something in every other item.
    pub fn master_entry(&self, set: u16, key: u32) -> Vec<u16> {
        let key_item = self.set(set).key;
        self.entry(set, |item| if item == key_item { key } else { key % 97 + u32::from(item) })
    }

    pub fn line(&self, line: Line) -> Vec<u16> {
        let paths = &self.set(self.lines).paths;
        let search = |path: usize| paths.get(path).map_or(0, |path| path[1]);
        self.entry(self.lines, |item| match item {
            _ if item == search(0) => line.account,
            _ if item == search(1) => line.date,
            _ if item == search(2) => line.third,
            _ if item == search(3) => line.fourth,
            _ => line.filler,
        })
    }
}
