//! Looks at a history from the outside: from its own list of entries and lines put and not deleted
//! it says what every chain must be, and reads the area to see that it is.

use crate::calls::{Answer, Call, State};
use crate::schema::{Path, Place, Schema, AUTOMATIC, DETAIL};
use std::collections::{BTreeMap, BTreeSet};

/// With more lines than this in a base, a change has only the chains of its own keys checked, and
/// all is checked every so many changes.
const MANY_LINES: usize = 150;
const CHANGES: usize = 100;

/// A line of a detail set, put and not deleted.
struct Line {
    record: u32,
    entry: Vec<u16>,
}

/// Two sums that must stay equal, for one sorted path.
#[derive(Clone, Copy, Default)]
struct Sums {
    /// Of the passed numbers.
    passed: u64,
    /// Of pairs of accepted puts of one key, the earlier line still there when the later came and
    /// with the strictly greater sort value.
    pairs: u64,
}

pub struct Watch {
    schema: Schema,
    places: Vec<Place>,
    /// For each detail set its lines, in the order put.
    lines: Vec<Vec<Line>>,
    /// For each manual master its entries.
    entries: Vec<BTreeSet<Vec<u16>>>,
    sums: Vec<[Sums; 4]>,
    changes: usize,
    /// The area after the last change.
    area: Vec<u16>,
}

impl Watch {
    /// Watches a history that begins on an area of zeros with fresh cursors.
    pub fn new(schema: &Schema) -> Watch {
        let sets = schema.sets.len();
        Watch {
            schema: schema.clone(),
            places: schema.places(),
            lines: (0..sets).map(|_| Vec::new()).collect(),
            entries: vec![BTreeSet::new(); sets],
            sums: vec![[Sums::default(); 4]; sets],
            changes: 0,
            area: vec![0; schema.area_length()],
        }
    }

    /// Sees one call: the cursors before it, its answer, the state after it.
    pub fn see(
        &mut self,
        call: &Call,
        cursors: &[u32; 64],
        answer: &Answer,
        after: &State,
    ) -> Result<(), String> {
        if answer.condition() == 18 {
            return Err("18 in a history that began on a new base".into());
        }
        let changed = match call {
            Call::Put { set, entry } | Call::Update { set, entry } => Some((*set, &entry[..])),
            Call::Delete { set } => Some((*set, &[][..])),
            Call::New | Call::Find { .. } | Call::Get { .. } => None,
        };
        let Some((set, entry)) = changed.filter(|_| answer.condition() == 0) else {
            let kept = after.area == self.area || after.area.len() != self.area.len();
            return kept.then_some(()).ok_or("a call that changes nothing changed the area".into());
        };
        let current = cursors[4 * usize::from(set) - 4];
        let touched = match call {
            Call::Put { .. } => self.see_put(set, entry, answer)?,
            Call::Update { .. } => self.see_update(set, entry, current)?,
            _ => self.see_delete(set, current)?,
        };
        self.check(set, &touched, &after.area)?;
        self.area.copy_from_slice(&after.area);
        Ok(())
    }

    /// Notes an accepted put; answers the entry.
    fn see_put(&mut self, set: u16, entry: &[u16], answer: &Answer) -> Result<Vec<u16>, String> {
        let index = usize::from(set) - 1;
        if self.schema.set(set).kind != DETAIL {
            self.entries[index].insert(entry.to_vec());
            return Ok(entry.to_vec());
        }
        for path in 0..4 {
            let pairs = self.lines_greater(set, path, entry);
            let sums = &mut self.sums[index][path];
            sums.passed += u64::from(answer.passed[path]);
            sums.pairs += pairs;
            if sums.passed != sums.pairs {
                let Sums { passed, pairs } = *sums;
                let path = path + 1;
                return Err(format!("set {set} path {path}: passed {passed}, pairs {pairs}"));
            }
        }
        let record = u32::from(answer.status[2]) << 16 | u32::from(answer.status[3]);
        self.lines[index].push(Line { record, entry: entry.to_vec() });
        Ok(entry.to_vec())
    }

    /// How many lines of the entry's key on this path have a greater sort value.
    fn lines_greater(&self, set: u16, index: usize, entry: &[u16]) -> u64 {
        let Some(path) = self.schema.set(set).paths.get(index).filter(|path| path.sort != 0) else {
            return 0;
        };
        let key = |entry| self.schema.part(set, path.search, entry);
        let sort = |entry| self.schema.part(set, path.sort, entry);
        let lines = self.lines[usize::from(set) - 1].iter().map(|line| &line.entry[..]);
        let of_key = lines.filter(|line| key(line) == key(entry));
        of_key.filter(|line| sort(line) > sort(entry)).count() as u64
    }

    /// Notes an accepted update; answers the new entry.
    fn see_update(&mut self, set: u16, entry: &[u16], record: u32) -> Result<Vec<u16>, String> {
        let index = usize::from(set) - 1;
        if self.schema.set(set).kind == DETAIL {
            let line = self.lines[index].iter_mut().find(|line| line.record == record);
            line.ok_or("an update of a line that isn't there")?.entry = entry.to_vec();
        } else {
            let old = self.places[index].entry(&self.area, record).to_vec();
            self.entries[index].remove(&old);
            self.entries[index].insert(entry.to_vec());
        }
        Ok(entry.to_vec())
    }

    /// Notes an accepted delete; answers the entry that went.
    fn see_delete(&mut self, set: u16, record: u32) -> Result<Vec<u16>, String> {
        let index = usize::from(set) - 1;
        if self.schema.set(set).kind == DETAIL {
            let place = self.lines[index].iter().position(|line| line.record == record);
            let place = place.ok_or("a delete of a line that isn't there")?;
            return Ok(self.lines[index].remove(place).entry);
        }
        let old = self.places[index].entry(&self.area, record).to_vec();
        self.entries[index].remove(&old);
        Ok(old)
    }

    /// Checks the area after a change of `entry` in `set`.
    fn check(&mut self, set: u16, entry: &[u16], area: &[u16]) -> Result<(), String> {
        self.changes += 1;
        let lines: usize = self.lines.iter().map(Vec::len).sum();
        if lines <= MANY_LINES || self.changes.is_multiple_of(CHANGES) {
            return self.check_all(area);
        }
        for (index, path) in self.schema.set(set).paths.iter().enumerate() {
            self.check_path(set, index, Some(self.schema.part(set, path.search, entry)), area)?;
        }
        Ok(())
    }

    fn check_all(&self, area: &[u16]) -> Result<(), String> {
        for set in 1..=self.schema.set_count() {
            if self.schema.set(set).kind == DETAIL {
                self.check_lines(set, area)?;
            } else {
                self.check_entries(set, area)?;
            }
        }
        Ok(())
    }

    /// A detail's live records are its lines, and each path's chains are as they must be.
    fn check_lines(&self, set: u16, area: &[u16]) -> Result<(), String> {
        let index = usize::from(set) - 1;
        let (lines, place) = (&self.lines[index], &self.places[index]);
        let stands = |line: &Line| {
            place.live(area, line.record) && place.entry(area, line.record) == line.entry
        };
        if let Some(line) = lines.iter().find(|line| !stands(line)) {
            return Err(format!("set {set} record {}: not the line put there", line.record));
        }
        if self.live_records(set, area).count() != lines.len() {
            return Err(format!("set {set}: more live records than lines"));
        }
        let paths = 0..self.schema.set(set).paths.len();
        paths.into_iter().try_for_each(|path| self.check_path(set, path, None, area))
    }

    fn live_records<'w>(&'w self, set: u16, area: &'w [u16]) -> impl Iterator<Item = u32> + 'w {
        let place = &self.places[usize::from(set) - 1];
        let records = 1..=u32::from(self.schema.set(set).capacity);
        records.filter(move |&record| place.live(area, record))
    }

    /// A master's live entries are those put and not deleted; an automatic one's are the keys of
    /// the lines that lead to it.
    fn check_entries(&self, set: u16, area: &[u16]) -> Result<(), String> {
        let place = &self.places[usize::from(set) - 1];
        let found: Vec<&[u16]> =
            self.live_records(set, area).map(|record| place.entry(area, record)).collect();
        let once: BTreeSet<&[u16]> = found.iter().copied().collect();
        let mut wanted: BTreeSet<&[u16]> = BTreeSet::new();
        if self.schema.set(set).kind == AUTOMATIC {
            for (detail, path) in self.schema.leading(set) {
                let search = self.schema.set(detail).paths[path].search;
                let lines = &self.lines[usize::from(detail) - 1];
                wanted.extend(lines.iter().map(|l| self.schema.part(detail, search, &l.entry)));
            }
        } else {
            wanted.extend(self.entries[usize::from(set) - 1].iter().map(Vec::as_slice));
        }
        if once != wanted || found.len() != once.len() {
            return Err(format!("set {set}: its live entries are not those put and not deleted"));
        }
        Ok(())
    }

    /// Each line's key has a live master entry, and each entry's chain is the lines of its key;
    /// of one key only, if it is given.
    fn check_path(
        &self,
        set: u16,
        index: usize,
        only: Option<&[u16]>,
        area: &[u16],
    ) -> Result<(), String> {
        let path = &self.schema.set(set).paths[index];
        let is_meant = |key: &[u16]| only.is_none_or(|only| only == key);
        let mut chains = self.chains(set, path, is_meant);
        let key_item = self.schema.set(path.master).key;
        let holders = &self.places[usize::from(path.master) - 1];
        let leading = self.schema.leading(path.master);
        let head = leading.iter().position(|&path| path == (set, index)).expect("it leads there");
        for holder in self.live_records(path.master, area) {
            let key = self.schema.part(path.master, key_item, holders.entry(area, holder));
            if is_meant(key) {
                let chain = chains.remove(key).unwrap_or_default();
                let at = holders.record(holder) + 5 + 5 * head;
                self.check_chain(set, index, &chain, &area[at..at + 5], area)?;
            }
        }
        match chains.into_keys().next() {
            Some(key) => Err(format!("set {set} path {}: no entry for key {key:?}", index + 1)),
            None => Ok(()),
        }
    }

    /// For each key that is meant its lines as they must stand on a path: by sort value, and among
    /// equals, or with no sort item, in the order put.
    fn chains(
        &self,
        set: u16,
        path: &Path,
        is_meant: impl Fn(&[u16]) -> bool,
    ) -> BTreeMap<&[u16], Vec<&Line>> {
        let mut chains: BTreeMap<&[u16], Vec<&Line>> = BTreeMap::new();
        for line in &self.lines[usize::from(set) - 1] {
            let key = self.schema.part(set, path.search, &line.entry);
            if is_meant(key) {
                chains.entry(key).or_default().push(line);
            }
        }
        if path.sort != 0 {
            for chain in chains.values_mut() {
                // A stable sort.
                chain.sort_by_key(|line| self.schema.part(set, path.sort, &line.entry));
            }
        }
        chains
    }

    /// The head counts the chain; forward from first it is exactly these lines, backward from last
    /// the reverse.
    fn check_chain(
        &self,
        set: u16,
        index: usize,
        chain: &[&Line],
        head: &[u16],
        area: &[u16],
    ) -> Result<(), String> {
        let place = &self.places[usize::from(set) - 1];
        let link = |words: &[u16]| u32::from(words[0]) << 16 | u32::from(words[1]);
        let broken = |what| Err(format!("set {set} path {}: {what}", index + 1));
        if usize::from(head[0]) != chain.len() {
            return broken("a head's count isn't the number of its lines");
        }
        let (mut back, mut forward) = (link(&head[1..]), link(&head[3..]));
        for (first, last) in chain.iter().zip(chain.iter().rev()) {
            if forward != first.record {
                return broken("the chain read forward isn't its lines in order");
            }
            if back != last.record {
                return broken("the chain read backward isn't its lines in reverse");
            }
            back = link(&area[place.record(back) + 4 * index..]);
            forward = link(&area[place.record(forward) + 4 * index + 2..]);
        }
        if back != 0 || forward != 0 {
            return broken("a chain doesn't end after its lines");
        }
        Ok(())
    }
}
