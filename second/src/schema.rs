//! A base's description as the driver draws it, and its own reckoning of where things stand in the
//! area. It knows nothing of the model's.

pub const MANUAL: u16 = 1;
pub const AUTOMATIC: u16 = 2;
pub const DETAIL: u16 = 3;

pub const TYPE_I: u16 = 1;
pub const TYPE_K: u16 = 2;
pub const TYPE_X: u16 = 3;

#[derive(Clone, Default)]
pub struct Schema {
    pub items: Vec<Item>,
    pub sets: Vec<Set>,
}

#[derive(Clone, Copy, PartialEq, Eq)]
pub struct Item {
    pub kind: u16,
    pub length: u16,
}

#[derive(Clone)]
pub struct Set {
    pub kind: u16,
    pub capacity: u16,
    pub key: u16,
    pub items: Vec<u16>,
    pub paths: Vec<Path>,
}

#[derive(Clone)]
pub struct Path {
    pub master: u16,
    pub search: u16,
    pub sort: u16,
}

/// Where a set stands in the area.
#[derive(Clone, Copy, Default)]
pub struct Place {
    pub start: usize,
    pub records: usize,
    pub record_length: usize,
    /// Words of a record before its entry.
    pub lead: usize,
    pub end: usize,
}

impl Schema {
    pub fn new(items: &[(u16, u16)], sets: Vec<Set>) -> Schema {
        let items = items.iter().map(|&(kind, length)| Item { kind, length }).collect();
        Schema { items, sets }
    }

    /// The root words.
    pub fn words(&self) -> Vec<u16> {
        let mut words = vec![self.items.len() as u16, self.sets.len() as u16];
        words.extend(self.items.iter().flat_map(|item| [item.kind, item.length]));
        self.sets.iter().for_each(|set| words.extend(set.words()));
        words
    }

    /// The item with this number.
    pub fn item(&self, number: u16) -> Item {
        self.items[usize::from(number) - 1]
    }

    /// The set with this number.
    pub fn set(&self, number: u16) -> &Set {
        &self.sets[usize::from(number) - 1]
    }

    pub fn set_count(&self) -> u16 {
        self.sets.len() as u16
    }

    /// The numbers of all sets of a kind.
    pub fn sets_of(&self, kind: u16) -> Vec<u16> {
        (1..=self.set_count()).filter(|&number| self.set(number).kind == kind).collect()
    }

    /// The paths leading to a master: detail set number and path index.
    pub fn leading(&self, master: u16) -> Vec<(u16, usize)> {
        let mut leading = Vec::new();
        for detail in 1..=self.set_count() {
            for (index, path) in self.set(detail).paths.iter().enumerate() {
                if path.master == master {
                    leading.push((detail, index));
                }
            }
        }
        leading
    }

    pub fn entry_length(&self, set: u16) -> usize {
        self.set(set).items.iter().map(|&item| usize::from(self.item(item).length)).sum()
    }

    /// Where the item's words begin in the set's entry.
    pub fn offset(&self, set: u16, item: u16) -> usize {
        let before = self.set(set).items.iter().take_while(|&&number| number != item);
        before.map(|&number| usize::from(self.item(number).length)).sum()
    }

    /// The item's words in an entry of the set.
    pub fn part<'e>(&self, set: u16, item: u16, entry: &'e [u16]) -> &'e [u16] {
        let at = self.offset(set, item);
        &entry[at..at + usize::from(self.item(item).length)]
    }

    /// The places of all sets.
    pub fn places(&self) -> Vec<Place> {
        let mut places = Vec::new();
        let mut start = 0;
        for number in 1..=self.set_count() {
            let set = self.set(number);
            let lead = if set.kind == DETAIL {
                4 * set.paths.len()
            } else {
                5 + 5 * self.leading(number).len()
            };
            let record_length = lead + self.entry_length(number);
            let records = start + 2 + usize::from(set.capacity).div_ceil(16);
            let end = records + usize::from(set.capacity) * record_length;
            places.push(Place { start, records, record_length, lead, end });
            start = end;
        }
        places
    }

    /// Which of the limits it goes up to.
    pub fn limits_met(&self) -> Vec<&'static str> {
        let any = |what: &dyn Fn(&Set) -> bool| self.sets.iter().any(what);
        let twice = |set: &Set| {
            let mut masters: Vec<u16> = set.paths.iter().map(|path| path.master).collect();
            masters.sort_unstable();
            masters.windows(2).any(|two| two[0] == two[1])
        };
        let longest_key = |set: &Set| set.key != 0 && self.item(set.key).length == 32;
        let limits = [
            ("16 sets", self.sets.len() == 16),
            ("64 items", self.items.len() == 64),
            ("16 items in a set", any(&|set| set.items.len() == 16)),
            ("four paths of a detail", any(&|set| set.paths.len() == 4)),
            ("two paths of a detail to one master", any(&twice)),
            ("8 paths to a master", (1..=self.set_count()).any(|set| self.leading(set).len() == 8)),
            ("a key of 32 words", any(&longest_key)),
            ("a detail without paths", any(&|set| set.kind == DETAIL && set.paths.is_empty())),
            ("capacity 1", any(&|set| set.capacity == 1)),
            ("capacity 4,095", any(&|set| set.capacity == 4095)),
        ];
        limits.into_iter().filter(|(_, met)| *met).map(|(limit, _)| limit).collect()
    }

    pub fn area_length(&self) -> usize {
        self.places().last().map_or(0, |place| place.end)
    }
}

impl Set {
    pub fn new(
        kind: u16,
        capacity: u16,
        key: u16,
        items: &[u16],
        paths: &[(u16, u16, u16)],
    ) -> Set {
        let path = |&(master, search, sort): &(u16, u16, u16)| Path { master, search, sort };
        let paths = paths.iter().map(path).collect();
        Set { kind, capacity, key, items: items.to_vec(), paths }
    }

    fn words(&self) -> Vec<u16> {
        let counts = [self.items.len() as u16, self.key, self.paths.len() as u16];
        let mut words = vec![self.kind, self.capacity];
        words.extend(counts);
        words.extend(&self.items);
        words.resize(21, 0);
        words.extend(self.paths.iter().flat_map(|path| [path.master, path.search, path.sort]));
        words.resize(33, 0);
        words
    }
}

impl Place {
    /// Where a record begins.
    pub fn record(&self, record: u32) -> usize {
        self.records + (record as usize - 1) * self.record_length
    }

    /// Where a record's map bit stands: the word, and the bit in it.
    pub fn map_bit(&self, record: u32) -> (usize, u16) {
        let bit = record as usize - 1;
        (self.start + 2 + bit / 16, 1 << (15 - bit % 16))
    }

    pub fn live(&self, area: &[u16], record: u32) -> bool {
        let (at, bit) = self.map_bit(record);
        area[at] & bit != 0
    }

    pub fn entry<'a>(&self, area: &'a [u16], record: u32) -> &'a [u16] {
        let at = self.record(record);
        &area[at + self.lead..at + self.record_length]
    }
}
