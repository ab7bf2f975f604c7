//! Document 01, "Detail steps".

use super::area::{Base, Head, Links};
use super::root::{Field, Kind, Path, Set};
use super::Refusal;

/// A line that has been put.
pub struct Placed {
    pub record: u32,
    pub passed: [u16; 4],
}

impl Base<'_> {
    /// "Put takes the first freed record; if none, the one above the high-water mark. Then paths
    /// 1 upward".
    pub fn put_line(&mut self, set: &Set, entry: &[u16]) -> Result<Placed, Refusal> {
        let record = self.take_line(set)?;
        let mut passed = [0; 4];
        for (index, path) in set.paths.iter().enumerate() {
            passed[index] = self.put_on_path(set, index, path, record, entry)?;
        }
        // "a detail record [goes live] after the last path"
        self.write_words(set.entry_at(record), entry);
        self.make_live(set, record);
        Ok(Placed { record, passed })
    }

    /// The record for a new line, taken off the freed ones or from above the mark.
    fn take_line(&mut self, set: &Set) -> Result<u32, Refusal> {
        // "Also 18: a high-water mark above C, read first of all by a detail put"
        let mark = u32::from(self.word(set.mark_at()));
        if mark > set.capacity {
            return Err(Refusal::BROKEN);
        }
        let freed = self.freed(set.freed_at(), set)?;
        let record = if freed != 0 { freed } else { mark + 1 };
        if record > set.capacity {
            return Err(Refusal::FULL);
        }
        // "needs a free one that is live": 18.
        if self.live(set, record) {
            return Err(Refusal::BROKEN);
        }
        if freed != 0 {
            // "a freed detail record's first word names the next freed one"
            let next = self.freed(set.record_at(freed), set)?;
            self.write_word(set.freed_at(), next as u16);
        } else {
            self.write_word(set.mark_at(), record as u16);
        }
        Ok(record)
    }

    /// "find the master entry; an automatic master gets it if absent; place the line". Answers
    /// the lines passed. "Reading order: in a path, master entry, head, own links, line behind,
    /// line ahead".
    fn put_on_path(
        &mut self,
        set: &Set,
        index: usize,
        path: &Path,
        line: u32,
        entry: &[u16],
    ) -> Result<u16, Refusal> {
        let master = &self.root.sets[path.master];
        let key = path.search.of(entry);
        let number = index as i16 + 1;
        let holder = match (self.find_entry(master, key)?, master.kind) {
            (Some(holder), _) => holder,
            (None, Kind::Automatic) => {
                self.put_entry(master, key, Refusal::automatic_full(number))?
            }
            (None, _) => return Err(Refusal::no_manual_entry(number)),
        };
        let mut head = self.head(master, holder, path.head)?;
        let (links, passed) = match &path.sort {
            None => (self.place_at_end(set, &head)?, 0),
            Some(sort) => self.place_sorted(set, index, sort, &head, entry)?,
        };
        self.write_forward(set, links.backward, index, line);
        self.write_backward(set, links.forward, index, line);
        // "with 0 on a side, the head's first or last is the new line"
        head.count += 1;
        if links.backward == 0 {
            head.first = line;
        }
        if links.forward == 0 {
            head.last = line;
        }
        self.write_head(master, holder, path.head, &head);
        self.write_backward(set, line, index, links.backward);
        self.write_forward(set, line, index, links.forward);
        Ok(passed)
    }

    /// "Unsorted: at the end."
    fn place_at_end(&self, set: &Set, head: &Head) -> Result<Links, Refusal> {
        self.follow(set, head.last)?;
        Ok(Links { backward: head.last, forward: 0 })
    }

    /// "Sorted: from the last line backward, pass each line whose sort value is greater than the
    /// new one (words compared unsigned, first word first), and stand after the first that isn't.
    /// The new links are that line and the one passed last".
    fn place_sorted(
        &self,
        set: &Set,
        path: usize,
        sort: &Field,
        head: &Head,
        entry: &[u16],
    ) -> Result<(Links, u16), Refusal> {
        let mut place = Links { backward: head.last, forward: 0 };
        let mut passed = 0;
        while place.backward != 0 {
            let line = place.backward;
            // "visits more than C records in a walk"
            if u32::from(passed) == set.capacity {
                return Err(Refusal::BROKEN);
            }
            self.follow(set, line)?;
            if sort.of(self.entry(set, line)) <= sort.of(entry) {
                break;
            }
            passed += 1;
            place = Links { backward: self.links(set, line, path)?.backward, forward: line };
        }
        Ok((place, passed))
    }

    /// "Delete: paths 1 upward, unlink, lower the count, and drop an automatic entry whose head
    /// counts are then all 0; the record becomes the first freed."
    pub fn delete_line(&mut self, set: &Set, record: u32) -> Result<(), Refusal> {
        let entry = self.entry(set, record).to_vec();
        for (index, path) in set.paths.iter().enumerate() {
            self.delete_on_path(set, index, path, record, &entry)?;
        }
        let freed = self.freed(set.freed_at(), set)?;
        self.make_unused(set, record);
        self.write_word(set.record_at(record), freed as u16);
        self.write_word(set.freed_at(), record as u16);
        Ok(())
    }

    fn delete_on_path(
        &mut self,
        set: &Set,
        index: usize,
        path: &Path,
        line: u32,
        entry: &[u16],
    ) -> Result<(), Refusal> {
        let master = &self.root.sets[path.master];
        // "Also 18: ... a detail delete whose master entry is absent."
        let holder = self.find_entry(master, path.search.of(entry))?.ok_or(Refusal::BROKEN)?;
        let mut head = self.head(master, holder, path.head)?;
        let links = self.links(set, line, index)?;
        self.follow(set, links.backward)?;
        self.follow(set, links.forward)?;
        // "must lower 0": 18.
        head.count = head.count.checked_sub(1).ok_or(Refusal::BROKEN)?;
        self.write_forward(set, links.backward, index, links.forward);
        self.write_backward(set, links.forward, index, links.backward);
        if links.backward == 0 {
            head.first = links.forward;
        }
        if links.forward == 0 {
            head.last = links.backward;
        }
        self.write_head(master, holder, path.head, &head);
        if master.kind == Kind::Automatic && !self.has_lines(master, holder)? {
            self.delete_entry(master, holder)?;
        }
        Ok(())
    }
}
