//! The root: the rules of document 01, "The root", and where each thing then stands in the area.

/// "type (1 = I signed, 2 = K unsigned, 3 = X characters)"
#[derive(Clone, Copy, PartialEq, Eq)]
pub enum Type {
    I,
    K,
    X,
}

/// "two words per item: type ... and length in words"
#[derive(Clone, Copy, PartialEq, Eq)]
pub struct Item {
    pub kind: Type,
    pub length: usize,
}

/// "kind (1 manual master, 2 automatic master, 3 detail)"
#[derive(Clone, Copy, PartialEq, Eq)]
pub enum Kind {
    Manual,
    Automatic,
    Detail,
}

/// An item and its place inside a set's entry.
pub struct Field {
    pub number: u16,
    pub item: Item,
    at: usize,
}

/// A path of a detail set.
pub struct Path {
    /// Index of the master set.
    pub master: usize,
    /// Index of this path's head among the heads of the master's records.
    pub head: usize,
    pub search: Field,
    pub sort: Option<Field>,
}

/// A set, laid out.
pub struct Set {
    pub kind: Kind,
    pub capacity: u32,
    pub entry_length: usize,
    /// A master's key.
    pub key: Option<Field>,
    /// A detail's paths.
    pub paths: Vec<Path>,
    /// For each path leading to this master the capacity of its detail set,
    /// "by detail set number, then path number".
    pub heads: Vec<u32>,
    start: usize,
}

/// A root that keeps every rule.
pub struct Root {
    pub sets: Vec<Set>,
}

/// A rule: `None`, that is −91, unless it holds.
fn hold(rule: bool) -> Option<()> {
    rule.then_some(())
}

impl Item {
    fn read(words: &[u16]) -> Option<Item> {
        let length = usize::from(words[1]);
        // "length in words (I and K: 1 or 2; X: 1..32)"
        let (kind, limit) = match words[0] {
            1 => (Type::I, 2),
            2 => (Type::K, 2),
            3 => (Type::X, 32),
            _ => return None,
        };
        hold((1..=limit).contains(&length))?;
        Some(Item { kind, length })
    }
}

impl Kind {
    fn read(word: u16) -> Option<Kind> {
        match word {
            1 => Some(Kind::Manual),
            2 => Some(Kind::Automatic),
            3 => Some(Kind::Detail),
            _ => None,
        }
    }
}

/// A set as the root states it: "33 words per set".
struct Stated {
    kind: Kind,
    capacity: u16,
    key: u16,
    items: Vec<u16>,
    paths: Vec<Triple>,
}

/// "triples of master set, search item, sort item (0: none)"
struct Triple {
    master: u16,
    search: u16,
    sort: u16,
}

impl Stated {
    fn read(words: &[u16]) -> Option<Stated> {
        let kind = Kind::read(words[0])?;
        let (capacity, key) = (words[1], words[3]);
        let (item_count, path_count) = (usize::from(words[2]), usize::from(words[4]));
        // "capacity 1..4,095; item count 1..16; key item number (0 for a detail); path count
        // 0..4 (0 for a master)"
        hold((1..=4095).contains(&capacity))?;
        hold((1..=16).contains(&item_count))?;
        hold(path_count <= 4)?;
        match kind {
            Kind::Detail => hold(key == 0)?,
            Kind::Manual | Kind::Automatic => hold(path_count == 0)?,
        }
        let (items, unused_items) = words[5..21].split_at(item_count);
        let (triples, unused_triples) = words[21..33].split_at(3 * path_count);
        // "Unused places are 0"
        hold(unused_items.iter().chain(unused_triples).all(|&word| word == 0))?;
        let paths = triples.chunks(3);
        let paths = paths.map(|t| Triple { master: t[0], search: t[1], sort: t[2] }).collect();
        Some(Stated { kind, capacity, key, items: items.to_vec(), paths })
    }

    /// The rules that a set keeps by itself.
    fn check(&self, item_count: usize) -> Option<()> {
        // "a set's items exist and differ"
        hold(self.items.iter().all(|&item| (1..=item_count).contains(&usize::from(item))))?;
        hold(differ(self.items.iter()))?;
        // "a master's key is among them"
        hold(self.kind == Kind::Detail || self.items.contains(&self.key))?;
        // "an automatic master has only its key"
        hold(self.kind != Kind::Automatic || self.items.len() == 1)?;
        // "search items of one set differ"
        hold(differ(self.paths.iter().map(|path| &path.search)))
    }

    /// The rules of one of this set's paths.
    fn check_path(&self, path: &Triple, items: &[Item], sets: &[Stated]) -> Option<()> {
        // "A path names a master set"
        let master = sets.get(usize::from(path.master).checked_sub(1)?)?;
        hold(master.kind != Kind::Detail)?;
        // "its items are among its own set's items"
        hold(self.items.contains(&path.search))?;
        hold(path.sort == 0 || self.items.contains(&path.sort))?;
        // "a search item has its master's key type and length"
        let item = |number: u16| items[usize::from(number) - 1];
        hold(item(path.search) == item(master.key))?;
        // "a sort item is K or X and isn't that path's search item"
        hold(path.sort == 0 || item(path.sort).kind != Type::I && path.sort != path.search)
    }

    fn field(&self, number: u16, items: &[Item]) -> Option<Field> {
        let place = self.items.iter().position(|&item| item == number)?;
        let at = self.items[..place].iter().map(|&item| items[usize::from(item) - 1].length).sum();
        Some(Field { number, item: items[usize::from(number) - 1], at })
    }
}

fn differ<'w>(words: impl Iterator<Item = &'w u16>) -> bool {
    let mut seen = Vec::new();
    words.into_iter().all(|word| {
        let new = !seen.contains(word);
        seen.push(*word);
        new
    })
}

impl Root {
    /// The root in these words; `None` if it "breaks a rule above" (−91).
    pub fn read(words: &[u16]) -> Option<Root> {
        // "Word 1: items, 1..64. Word 2: sets, 1..16."
        let (item_count, set_count) = (*words.first()?, *words.get(1)?);
        hold((1..=64).contains(&item_count) && (1..=16).contains(&set_count))?;
        // "nothing follows"
        let (item_count, set_count) = (usize::from(item_count), usize::from(set_count));
        hold(words.len() == 2 + 2 * item_count + 33 * set_count)?;
        let (item_words, set_words) = words[2..].split_at(2 * item_count);
        let items: Vec<Item> = item_words.chunks(2).map(Item::read).collect::<Option<_>>()?;
        let sets: Vec<Stated> = set_words.chunks(33).map(Stated::read).collect::<Option<_>>()?;
        sets.iter().try_for_each(|set| set.check(item_count))?;
        for set in &sets {
            set.paths.iter().try_for_each(|path| set.check_path(path, &items, &sets))?;
        }
        let mut root = Root { sets: Vec::new() };
        for (index, set) in sets.iter().enumerate() {
            let start = root.area_length();
            let heads = heads(index, &sets);
            // "at least one path leading to it; at most 8 paths lead to a master"
            hold(set.kind != Kind::Automatic || !heads.is_empty())?;
            hold(heads.len() <= 8)?;
            root.sets.push(Set::lay_out(set, heads, start, &items, &sets)?);
        }
        Some(root)
    }

    /// "Sets follow one another."
    pub fn area_length(&self) -> usize {
        self.sets.last().map_or(0, Set::end)
    }
}

/// The paths that lead to the master with this index: the capacity of the detail of each.
fn heads(master: usize, sets: &[Stated]) -> Vec<u32> {
    let paths = sets.iter().flat_map(|set| set.paths.iter().map(move |path| (set, path)));
    let leading = paths.filter(|(_, path)| usize::from(path.master) == master + 1);
    leading.map(|(set, _)| u32::from(set.capacity)).collect()
}

/// The place of `wanted` among all paths that lead to its master.
fn head_index(wanted: &Triple, sets: &[Stated]) -> usize {
    let paths = sets.iter().flat_map(|set| &set.paths);
    let before = paths.take_while(|path| !std::ptr::eq(*path, wanted));
    before.filter(|path| path.master == wanted.master).count()
}

impl Set {
    fn lay_out(
        stated: &Stated,
        heads: Vec<u32>,
        start: usize,
        items: &[Item],
        sets: &[Stated],
    ) -> Option<Set> {
        let mut paths = Vec::new();
        for path in &stated.paths {
            paths.push(Path {
                master: usize::from(path.master) - 1,
                head: head_index(path, sets),
                search: stated.field(path.search, items)?,
                sort: stated.field(path.sort, items),
            });
        }
        let lengths = stated.items.iter().map(|&item| items[usize::from(item) - 1].length);
        Some(Set {
            kind: stated.kind,
            capacity: u32::from(stated.capacity),
            entry_length: lengths.sum(),
            key: stated.field(stated.key, items),
            paths,
            heads,
            start,
        })
    }

    pub fn is_master(&self) -> bool {
        self.kind != Kind::Detail
    }

    /// "Each has two words (high-water mark and first freed record ...), then the map, then the
    /// records numbered from 1."
    pub fn mark_at(&self) -> usize {
        self.start
    }

    pub fn freed_at(&self) -> usize {
        self.start + 1
    }

    /// "one bit per record, 1 = live, record 1 in the highest bit of the first word": the word
    /// of a record's bit, and the bit.
    pub fn map_at(&self, record: u32) -> (usize, u16) {
        debug_assert!((1..=self.capacity).contains(&record));
        let bit = record as usize - 1;
        (self.start + 2 + bit / 16, 0x8000 >> (bit % 16))
    }

    /// The part of the area that is the record's own begins here.
    pub fn record_at(&self, record: u32) -> usize {
        debug_assert!((1..=self.capacity).contains(&record));
        self.records_at() + (record as usize - 1) * self.record_length()
    }

    /// "five words of chain head for each path leading here"
    pub fn head_at(&self, record: u32, head: usize) -> usize {
        self.record_at(record) + 5 + 5 * head
    }

    /// "for each path a backward and a forward link"
    pub fn links_at(&self, record: u32, path: usize) -> usize {
        self.record_at(record) + 4 * path
    }

    /// "then the entry"
    pub fn entry_at(&self, record: u32) -> usize {
        self.record_at(record) + self.lead()
    }

    pub fn record_length(&self) -> usize {
        self.lead() + self.entry_length
    }

    /// The words of a record before its entry.
    fn lead(&self) -> usize {
        match self.kind {
            Kind::Detail => 4 * self.paths.len(),
            Kind::Manual | Kind::Automatic => 5 + 5 * self.heads.len(),
        }
    }

    fn records_at(&self) -> usize {
        self.start + 2 + (self.capacity as usize).div_ceil(16)
    }

    fn end(&self) -> usize {
        self.records_at() + self.capacity as usize * self.record_length()
    }
}

impl Field {
    /// This item's words in an entry.
    pub fn of<'e>(&self, entry: &'e [u16]) -> &'e [u16] {
        &entry[self.at..self.at + self.item.length]
    }
}
