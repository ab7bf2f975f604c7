//! The root: its rules judged in one pass over its sets, and the layout that it means.

/// 33 words.
#[derive(Clone, Copy)]
pub struct Stated<'r>(&'r [u16; 33]);

#[derive(Clone, Copy, PartialEq, Eq)]
pub enum Kind {
    Manual,
    Automatic,
    Detail,
}

/// An item's place in the entry.
#[derive(Clone, Copy)]
pub struct Field {
    pub at: usize,
    pub length: usize,
}

/// Where a set stands in the area.
#[derive(Clone, Copy)]
pub struct Shape {
    pub start: usize,
    pub records: usize,
    pub capacity: u32,
    /// Words of a record; those of them before the entry; those of the entry.
    pub width: usize,
    pub front: usize,
    pub entry: usize,
}

pub struct Master {
    pub shape: Shape,
    pub automatic: bool,
    pub text: bool,
    pub key: Field,
}

/// A path of a detail: its master, the number of its head there, search and sort item.
pub struct Path {
    pub master: Master,
    pub head: usize,
    pub search: Field,
    pub sort: Option<Field>,
}

/// A root that keeps every rule, with what is counted on the way.
pub struct Root<'r> {
    items: &'r [[u16; 2]],
    sets: &'r [[u16; 33]],
    /// Of each set the words of its entry, the paths that lead to it, and its start.
    entries: [u16; 16],
    leads: [u16; 16],
    starts: [u32; 17],
    /// Of each path the number of its head in its master.
    heads: [[u16; 4]; 16],
}

fn hold(rule: bool) -> Option<()> {
    rule.then_some(())
}

/// Item n in bit n − 1.
fn has(bits: u64, item: u16) -> bool {
    (1..=64).contains(&item) && bits >> (item - 1) & 1 == 1
}

fn good_item(&[kind, length]: &[u16; 2]) -> bool {
    match kind {
        1 | 2 => (1..=2).contains(&length),
        3 => (1..=32).contains(&length),
        _ => false,
    }
}

impl<'r> Stated<'r> {
    /// Of a good root: another number than 1 and 2 is 3.
    pub fn kind(self) -> Kind {
        match self.0[0] {
            1 => Kind::Manual,
            2 => Kind::Automatic,
            _ => Kind::Detail,
        }
    }

    pub fn capacity(self) -> u16 {
        self.0[1]
    }

    pub fn key(self) -> u16 {
        self.0[3]
    }

    pub fn path_count(self) -> u16 {
        self.0[4]
    }

    fn items(self) -> &'r [u16] {
        &self.0[5..21][..usize::from(self.0[2])]
    }

    /// Triples of master, search item, sort item.
    pub fn paths(self) -> &'r [[u16; 3]] {
        &self.0[21..].as_chunks().0[..usize::from(self.0[4])]
    }
}

impl<'r> Root<'r> {
    /// `None` if the root breaks a rule.
    pub fn read(words: &'r [u16]) -> Option<Root<'r>> {
        let (&[item_count, set_count], rest) = words.split_first_chunk()?;
        hold((1..=64).contains(&item_count) && (1..=16).contains(&set_count))?;
        let (items, sets) = rest.split_at_checked(2 * usize::from(item_count))?;
        let (items, (sets, further)) = (items.as_chunks().0, sets.as_chunks());
        hold(sets.len() == usize::from(set_count) && further.is_empty())?;
        hold(items.iter().all(good_item))?;
        let (entries, leads, starts) = ([0; 16], [0; 16], [0; 17]);
        let mut root = Root { items, sets, entries, leads, starts, heads: [[0; 4]; 16] };
        for (index, set) in sets.iter().enumerate() {
            let listed = root.judge_set(index, set)?;
            root.judge_paths(index, Stated(set), listed)?;
        }
        root.lay_out()?;
        Some(root)
    }

    /// The rules of a set by itself; answers its items as bits.
    fn judge_set(&mut self, index: usize, set: &[u16; 33]) -> Option<u64> {
        let [kind, capacity, count, key, paths, ..] = *set;
        hold((1..=4095).contains(&capacity) && (1..=16).contains(&count) && paths <= 4)?;
        let (listed, unused) = set[5..21].split_at(count.into());
        let unused_triples = &set[21 + 3 * usize::from(paths)..];
        hold(unused.iter().all(|&word| word == 0))?;
        hold(unused_triples.iter().all(|&word| word == 0))?;
        let (mut bits, mut length) = (0, 0);
        for &item in listed {
            let [_, words] = self.items.get(usize::from(item).wrapping_sub(1))?;
            hold(!has(bits, item))?;
            bits |= 1 << (item - 1);
            length += words;
        }
        match kind {
            1 => hold(paths == 0 && has(bits, key))?,
            2 => hold(paths == 0 && has(bits, key) && count == 1)?,
            3 => hold(key == 0)?,
            _ => return None,
        }
        self.entries[index] = length;
        Some(bits)
    }

    /// The rules of a set's paths, each of which takes the next head of its master.
    fn judge_paths(&mut self, index: usize, set: Stated, listed: u64) -> Option<()> {
        let mut spare = listed;
        for (path, &[master, search, sort]) in set.paths().iter().enumerate() {
            let master = usize::from(master).wrapping_sub(1);
            let &[kind, _, _, key, ..] = self.sets.get(master)?;
            hold(kind == 1 || kind == 2)?;
            // Among the items, and no search item yet.
            hold(has(spare, search))?;
            spare ^= 1 << (search - 1);
            let key = self.items.get(usize::from(key).wrapping_sub(1))?;
            hold(self.item(search) == key)?;
            hold(sort == 0 || sort != search && has(listed, sort) && self.item(sort)[0] != 1)?;
            self.heads[index][path] = self.leads[master];
            self.leads[master] += 1;
        }
        Some(())
    }

    /// The rules about the paths that lead to a set; where each set starts.
    fn lay_out(&mut self) -> Option<()> {
        for index in 0..self.sets.len() {
            let (leads, kind) = (self.leads[index], self.stated(index).kind());
            hold(leads <= 8 && (kind != Kind::Automatic || leads > 0))?;
            self.starts[index + 1] = self.shape(index).end() as u32;
        }
        Some(())
    }

    pub fn area_length(&self) -> usize {
        self.starts[self.sets.len()] as usize
    }

    pub fn set_count(&self) -> usize {
        self.sets.len()
    }

    pub fn stated(&self, set: usize) -> Stated<'r> {
        Stated(&self.sets[set])
    }

    fn item(&self, number: u16) -> &[u16; 2] {
        &self.items[usize::from(number) - 1]
    }

    pub fn shape(&self, set: usize) -> Shape {
        let stated = self.stated(set);
        let front = match stated.kind() {
            Kind::Detail => 4 * usize::from(stated.path_count()),
            _ => 5 + 5 * usize::from(self.leads[set]),
        };
        let (start, entry) = (self.starts[set] as usize, usize::from(self.entries[set]));
        let capacity = u32::from(stated.capacity());
        let records = start + 2 + capacity.div_ceil(16) as usize;
        Shape { start, records, capacity, width: front + entry, front, entry }
    }

    /// The place of an item that the set has.
    pub fn field(&self, set: usize, item: u16) -> Field {
        let mut at = 0;
        for &other in self.stated(set).items() {
            let length = usize::from(self.item(other)[1]);
            if other == item {
                return Field { at, length };
            }
            at += length;
        }
        unreachable!("a key, search or sort item is among its set's items")
    }

    pub fn master(&self, set: usize) -> Master {
        let stated = self.stated(set);
        Master {
            shape: self.shape(set),
            automatic: stated.kind() == Kind::Automatic,
            text: self.item(stated.key())[0] == 3,
            key: self.field(set, stated.key()),
        }
    }

    pub fn path(&self, set: usize, path: usize) -> Path {
        let [master, search, sort] = self.stated(set).paths()[path];
        Path {
            master: self.master(usize::from(master) - 1),
            head: self.heads[set][path].into(),
            search: self.field(set, search),
            sort: (sort != 0).then(|| self.field(set, sort)),
        }
    }

    /// The set's path with this search item.
    pub fn search_path(&self, set: usize, item: u16) -> Option<usize> {
        self.stated(set).paths().iter().position(|&[_, search, _]| search == item)
    }

    pub fn path_master(&self, set: usize, path: usize) -> usize {
        usize::from(self.stated(set).paths()[path][0]) - 1
    }

    /// The capacities that a master's heads are held against, by detail and path.
    pub fn head_capacities(&self, master: usize) -> impl Iterator<Item = u32> + 'r {
        let paths = self.sets.iter().flat_map(|set| {
            let stated = Stated(set);
            stated.paths().iter().map(move |path| (stated, path[0]))
        });
        let leading = paths.filter(move |&(_, to)| usize::from(to) == master + 1);
        leading.map(|(stated, _)| stated.capacity().into())
    }
}

impl Shape {
    /// The first word of a record.
    pub fn at(&self, record: u32) -> usize {
        self.records + (record as usize - 1) * self.width
    }

    /// The word of the map with a record's bit, and the bit: record 1 in the highest.
    pub fn map_at(&self, record: u32) -> (usize, u16) {
        let bit = record as usize - 1;
        (self.start + 2 + bit / 16, 0x8000 >> (bit % 16))
    }

    pub fn head_at(&self, record: u32, head: usize) -> usize {
        self.at(record) + 5 + 5 * head
    }

    pub fn links_at(&self, record: u32, path: usize) -> usize {
        self.at(record) + 4 * path
    }

    fn end(&self) -> usize {
        self.records + self.capacity as usize * self.width
    }
}

impl Field {
    pub fn of(self, entry: &[u16]) -> &[u16] {
        &entry[self.at..self.at + self.length]
    }
}
