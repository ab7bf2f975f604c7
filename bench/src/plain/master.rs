//! Master steps: find, put and delete of an entry.

use super::area::{self, sound, Head, Journal, Work};
use super::root::{Master, Root, Shape};
use super::{Refusal, BROKEN};

/// The primary address of a key.
fn address(master: &Master, key: &[u16]) -> u32 {
    let capacity = master.shape.capacity;
    let by = if master.text { 257 } else { 65536 };
    let number = key.iter().fold(0, |v, &w| (by * v + u64::from(w)) % (1 << 31)) as u32;
    (number + capacity - 1) % capacity + 1
}

fn key<'a>(area: &'a [u16], master: &Master, record: u32) -> &'a [u16] {
    area::value(area, &master.shape, master.key, record)
}

/// The record with this key, if there is one.
pub fn find(area: &[u16], master: &Master, wanted: &[u16]) -> Result<Option<u32>, Refusal> {
    let shape = &master.shape;
    let home = address(master, wanted);
    if !area::live(area, shape, home) {
        return Ok(None);
    }
    let primary = area::synonyms(area, shape, home)?;
    if primary.count == 0 {
        return Ok(None);
    }
    if key(area, master, home) == wanted {
        return Ok(Some(home));
    }
    let mut record = primary.first;
    let mut visited = 1;
    while record != 0 {
        sound(visited < shape.capacity && area::live(area, shape, record))?;
        if key(area, master, record) == wanted {
            return Ok(Some(record));
        }
        record = area::synonyms(area, shape, record)?.first;
        visited += 1;
    }
    Ok(None)
}

/// Whether an entry has lines: heads are read up to the first count that isn't 0.
pub fn has_lines(
    area: &[u16],
    root: &Root,
    set: usize,
    shape: &Shape,
    record: u32,
) -> Result<bool, Refusal> {
    for (index, capacity) in root.head_capacities(set).enumerate() {
        if area::head(area, shape.head_at(record, index), capacity)?.count != 0 {
            return Ok(true);
        }
    }
    Ok(false)
}

/// A secondary's primary, found from its key; that address counts as a link.
fn primary(area: &[u16], master: &Master, secondary: u32) -> Result<u32, Refusal> {
    let primary = address(master, key(area, master, secondary));
    sound(primary != secondary && area::live(area, &master.shape, primary))?;
    Ok(primary)
}

impl<J: Journal> Work<'_, J> {
    /// Puts an entry whose key is absent; answers its record.
    pub fn put_entry(
        &mut self,
        master: &Master,
        entry: &[u16],
        full: Refusal,
    ) -> Result<u32, Refusal> {
        let shape = &master.shape;
        let home = address(master, master.key.of(entry));
        let alone = Head { count: 1, last: 0, first: 0 };
        if !area::live(self.area, shape, home) {
            self.enter(shape, home, alone, entry);
            return Ok(home);
        }
        let synonyms = area::synonyms(self.area, shape, home)?;
        let free = area::unused_from(self.area, shape, home).ok_or(full)?;
        if synonyms.count != 0 {
            self.join(shape, home, synonyms, free, entry)?;
            return Ok(free);
        }
        self.move_away(master, home, synonyms, free)?;
        self.enter(shape, home, alone, entry);
        Ok(home)
    }

    /// A new entry's record, whole: synonym words, heads of zeros, entry; then it goes live.
    fn enter(&mut self, shape: &Shape, record: u32, synonyms: Head, entry: &[u16]) {
        let at = shape.at(record);
        self.store_head(at, synonyms);
        self.store_zeros(at + 5, shape.front - 5);
        self.store_run(at + shape.front, entry);
        self.make_live(shape, record);
    }

    /// Behind the end of the chain of the primary at home.
    fn join(
        &mut self,
        shape: &Shape,
        home: u32,
        synonyms: Head,
        free: u32,
        entry: &[u16],
    ) -> Result<(), Refusal> {
        let behind = if synonyms.last == 0 { home } else { synonyms.last };
        area::follow(self.area, shape, behind)?;
        self.store_link(shape.at(behind) + 3, free);
        self.store(shape.at(home), [synonyms.count + 1]);
        self.store_link(shape.at(home) + 1, free);
        self.enter(shape, free, Head { count: 0, last: behind, first: 0 }, entry);
        Ok(())
    }

    /// The secondary at home moves to a free record, and its neighbours' links with it.
    fn move_away(
        &mut self,
        master: &Master,
        home: u32,
        moved: Head,
        free: u32,
    ) -> Result<(), Refusal> {
        let shape = &master.shape;
        area::follow(self.area, shape, moved.last)?;
        area::follow(self.area, shape, moved.first)?;
        let named_by = if moved.first != 0 {
            moved.first
        } else {
            let primary = primary(self.area, master, home)?;
            area::synonyms(self.area, shape, primary)?;
            primary
        };
        if moved.last != 0 {
            self.store_link(shape.at(moved.last) + 3, free);
        }
        self.store_link(shape.at(named_by) + 1, free);
        self.store_moved(shape.at(home), shape.at(free), shape.width);
        self.make_live(shape, free);
        Ok(())
    }

    /// Deletes an entry without lines.
    pub fn delete_entry(&mut self, master: &Master, record: u32) -> Result<(), Refusal> {
        let synonyms = area::synonyms(self.area, &master.shape, record)?;
        if synonyms.count == 0 {
            return self.unlink(master, record, synonyms);
        }
        if synonyms.first != 0 {
            return self.replace(&master.shape, record, synonyms);
        }
        self.make_unused(&master.shape, record);
        Ok(())
    }

    /// The first secondary takes its primary's place.
    fn replace(&mut self, shape: &Shape, record: u32, gone: Head) -> Result<(), Refusal> {
        let from = gone.first;
        area::follow(self.area, shape, from)?;
        let next = area::synonyms(self.area, shape, from)?.first;
        area::follow(self.area, shape, next)?;
        if next != 0 {
            self.store_link(shape.at(next) + 1, record);
        }
        let last = if gone.last == from { 0 } else { gone.last };
        self.store_moved(shape.at(from) + 5, shape.at(record) + 5, shape.width - 5);
        self.store_head(shape.at(record), Head { count: gone.count - 1, last, first: next });
        self.make_unused(shape, from);
        Ok(())
    }

    /// A secondary leaves its chain.
    fn unlink(&mut self, master: &Master, record: u32, gone: Head) -> Result<(), Refusal> {
        let shape = &master.shape;
        let (behind, ahead) = (gone.last, gone.first);
        area::follow(self.area, shape, behind)?;
        area::follow(self.area, shape, ahead)?;
        let primary = primary(self.area, master, record)?;
        let count = area::synonyms(self.area, shape, primary)?.count;
        let count = count.checked_sub(1).ok_or(BROKEN)?;
        if behind != 0 {
            self.store_link(shape.at(behind) + 3, ahead);
        }
        if ahead != 0 {
            self.store_link(shape.at(ahead) + 1, behind);
        }
        self.store(shape.at(primary), [count]);
        if ahead == 0 {
            let last = if behind == primary { 0 } else { behind };
            self.store_link(shape.at(primary) + 1, last);
        }
        self.make_unused(shape, record);
        Ok(())
    }
}
