//! Draws good roots and values.

use crate::random::Random;
use crate::schema::{Item, Path, Schema, Set, AUTOMATIC, DETAIL, MANUAL, TYPE_I, TYPE_K, TYPE_X};

/// How large a base is drawn.
pub struct Size {
    masters: (usize, usize),
    details: (usize, usize),
    paths: &'static [usize],
    capacities: &'static [u16],
    longest_item: usize,
    extra_items: usize,
    /// All 64 items are there.
    all_items: bool,
}

pub const SMALL: Size = Size {
    masters: (1, 3),
    details: (1, 2),
    paths: &[0, 1, 1, 2, 2, 2, 3, 4],
    capacities: &[1, 2, 3, 3, 4, 4, 5, 5, 6, 7, 8, 10],
    longest_item: 3,
    extra_items: 2,
    all_items: false,
};

pub const MEDIUM: Size = Size {
    masters: (1, 4),
    details: (1, 3),
    paths: &[1, 2, 3, 4, 4],
    capacities: &[2, 5, 8, 15, 16, 17, 31, 32, 33],
    longest_item: 4,
    extra_items: 3,
    all_items: false,
};

/// Up to the limits: 16 sets, 64 items, four paths, 8 paths to a master, items of 32 words.
pub const LIMITS: Size = Size {
    masters: (4, 12),
    details: (4, 12),
    paths: &[2, 3, 4, 4, 4],
    capacities: &[1, 2, 3, 4, 5, 6],
    longest_item: 32,
    extra_items: 8,
    all_items: true,
};

/// A good root of this size.
pub fn schema(random: &mut Random, size: &Size) -> Schema {
    let masters = random.between(size.masters.0, size.masters.1);
    let details = random.between(size.details.0, size.details.1).min(16 - masters);
    let mut kinds = vec![MANUAL; masters];
    kinds.resize(masters + details, DETAIL);
    random.shuffle(&mut kinds);
    let mut draft = Draft { random, size, schema: Schema::default() };
    kinds.into_iter().for_each(|kind| draft.add_set(kind));
    for set in draft.schema.sets_of(MANUAL) {
        draft.add_key(set);
    }
    for set in draft.schema.sets_of(DETAIL) {
        draft.add_paths(set);
    }
    for set in 1..=draft.schema.set_count() {
        draft.finish(set);
    }
    while size.all_items && draft.new_item(false).is_some() {}
    draft.schema
}

/// A root while it is drawn.
struct Draft<'d> {
    random: &'d mut Random,
    size: &'d Size,
    schema: Schema,
}

impl Draft<'_> {
    fn add_set(&mut self, kind: u16) {
        let capacity = self.random.pick(self.size.capacities);
        self.schema.sets.push(Set::new(kind, capacity, 0, &[], &[]));
    }

    fn set(&mut self, number: u16) -> &mut Set {
        &mut self.schema.sets[usize::from(number) - 1]
    }

    fn push_item(&mut self, item: Item) -> Option<u16> {
        if self.schema.items.len() == 64 {
            return None;
        }
        self.schema.items.push(item);
        Some(self.schema.items.len() as u16)
    }

    /// A new item of any type, or one to sort by.
    fn new_item(&mut self, to_sort_by: bool) -> Option<u16> {
        let kinds = if to_sort_by { &[TYPE_K, TYPE_X][..] } else { &[TYPE_I, TYPE_K, TYPE_X] };
        let kind = self.random.pick(kinds);
        let longest = if kind == TYPE_X { self.size.longest_item } else { 2 };
        // Mostly short ones, and now and then the longest.
        let length = match self.random.below(8) {
            0 => longest,
            1 | 2 => self.random.between(1, longest),
            _ => self.random.between(1, 2),
        };
        self.push_item(Item { kind, length: length as u16 })
    }

    fn any_item(&mut self) -> u16 {
        self.random.between(1, self.schema.items.len()) as u16
    }

    fn add_key(&mut self, set: u16) {
        let reuse = !self.schema.items.is_empty() && self.random.chance(30);
        let new = if reuse { None } else { self.new_item(false) };
        let key = new.unwrap_or_else(|| self.any_item());
        self.set(set).key = key;
        self.set(set).items.push(key);
    }

    fn add_paths(&mut self, set: u16) {
        for _ in 0..self.random.pick(self.size.paths) {
            let masters = self.schema.sets_of(MANUAL);
            let open = |&master: &u16| self.schema.leading(master).len() < 8;
            let masters: Vec<u16> = masters.into_iter().filter(open).collect();
            if masters.is_empty() {
                return;
            }
            // Half of them to the first, so that a master gets its eight.
            let other = self.random.pick(&masters);
            let master = if self.random.chance(50) { masters[0] } else { other };
            if let Some(search) = self.search_item(set, master) {
                let sort = self.sort_item(set, search);
                self.set(set).paths.push(Path { master, search, sort });
            }
        }
    }

    /// A search item for a new path: the master's key item itself, or another one like it.
    fn search_item(&mut self, set: u16, master: u16) -> Option<u16> {
        let key = self.schema.set(master).key;
        let same = self.random.chance(60);
        let number = if same { key } else { self.push_item(self.schema.item(key))? };
        let used = self.schema.set(set).paths.iter().any(|path| path.search == number);
        if used {
            return None;
        }
        self.add_item(set, number);
        Some(number)
    }

    /// A sort item for a new path: none, one that the set has, or a new one.
    fn sort_item(&mut self, set: u16, search: u16) -> u16 {
        if self.random.chance(40) {
            return 0;
        }
        let here = self.schema.set(set).items.iter().copied();
        let fits = |item: &u16| *item != search && self.schema.item(*item).kind != TYPE_I;
        let here: Vec<u16> = here.filter(fits).collect();
        if !here.is_empty() && self.random.chance(40) {
            return self.random.pick(&here);
        }
        let Some(new) = self.new_item(true) else { return 0 };
        self.add_item(set, new);
        new
    }

    fn add_item(&mut self, set: u16, number: u16) {
        if !self.schema.set(set).items.contains(&number) {
            self.set(set).items.push(number);
        }
    }

    /// Makes some masters automatic, gives the others further items, and mixes the items.
    fn finish(&mut self, set: u16) {
        let is_master = self.schema.set(set).kind == MANUAL;
        if is_master && !self.schema.leading(set).is_empty() && self.random.chance(50) {
            self.set(set).kind = AUTOMATIC;
            return;
        }
        let mut extra = self.random.between(0, self.size.extra_items);
        if self.schema.set(set).items.is_empty() {
            extra = extra.max(1);
        }
        if self.size.all_items && self.random.chance(10) {
            extra = 16;
        }
        // So many tries: an item that the set has already isn't added again.
        for _ in 0..2 * extra {
            let new = if self.random.chance(25) { self.new_item(false) } else { None };
            let number = new.unwrap_or_else(|| self.any_item());
            if self.schema.set(set).items.len() < 16 {
                self.add_item(set, number);
            }
        }
        let random = &mut *self.random;
        let set = &mut self.schema.sets[usize::from(set) - 1];
        random.shuffle(&mut set.items);
    }
}

/// A value for an item, one of few: numbers below `range`, most of them plain.
pub fn value(random: &mut Random, item: Item, range: usize) -> Vec<u16> {
    let mut words = vec![0; usize::from(item.length)];
    let number = random.below(range) as u16;
    if let Some(last) = words.last_mut() {
        *last = number;
    }
    // The top bit, a key of all ones, characters, another first word.
    match random.below(16) {
        0 => words[0] ^= 0x8000,
        1 => words[0] = 0xFFFF - words[0],
        2 if item.kind == TYPE_X => words.fill(0x4142 + number),
        3 => words[0] ^= 1,
        _ => {}
    }
    words
}

/// An entry for a set. Values that are no keys come from a still smaller range, so that lines of
/// one key often have equal sort values.
pub fn entry(random: &mut Random, schema: &Schema, set: u16, range: usize) -> Vec<u16> {
    let set = schema.set(set);
    let is_key = |item| item == set.key || set.paths.iter().any(|path| path.search == item);
    let range_of = |item| if is_key(item) { range } else { 4 };
    let values = set.items.iter().map(|&item| value(random, schema.item(item), range_of(item)));
    values.flatten().collect()
}
