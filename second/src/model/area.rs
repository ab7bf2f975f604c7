//! The area under a call: words, links and map bits, read and written on a copy.

use super::root::{Root, Set};
use super::Refusal;
use std::borrow::Cow;

/// A base as one call sees it. "Each call is worked as if on a copy: a refusal at any step leaves
/// the original": the first write makes the copy, and only an accepted call hands it back.
pub struct Base<'a> {
    pub root: &'a Root,
    pub area: Cow<'a, [u16]>,
}

/// "In a primary, how many live entries have this primary address, itself included, then last and
/// first secondary. In a secondary: 0, previous (the primary for the first), next."
pub struct Synonyms {
    pub count: u16,
    /// A primary's last, a secondary's previous.
    pub backward: u32,
    /// A primary's first, a secondary's next.
    pub forward: u32,
}

/// "chain head ...: count, last, first"
pub struct Head {
    pub count: u16,
    pub last: u32,
    pub first: u32,
}

/// "for each path a backward and a forward link"
#[derive(Clone, Copy, Default)]
pub struct Links {
    pub backward: u32,
    pub forward: u32,
}

impl Base<'_> {
    pub fn word(&self, at: usize) -> u16 {
        self.area[at]
    }

    pub fn write_word(&mut self, at: usize, word: u16) {
        self.area.to_mut()[at] = word;
    }

    /// "every two-word number has its high word first"
    fn number(&self, at: usize) -> u32 {
        u32::from(self.area[at]) << 16 | u32::from(self.area[at + 1])
    }

    pub fn write_number(&mut self, at: usize, number: u32) {
        self.write_word(at, (number >> 16) as u16);
        self.write_word(at + 1, number as u16);
    }

    pub fn words(&self, at: usize, length: usize) -> &[u16] {
        &self.area[at..at + length]
    }

    pub fn write_words(&mut self, at: usize, words: &[u16]) {
        self.area.to_mut()[at..at + words.len()].copy_from_slice(words);
    }

    pub fn entry(&self, set: &Set, record: u32) -> &[u16] {
        self.words(set.entry_at(record), set.entry_length)
    }

    /// "Map: one bit per record, 1 = live"
    pub fn live(&self, set: &Set, record: u32) -> bool {
        let (at, bit) = set.map_at(record);
        self.word(at) & bit != 0
    }

    pub fn make_live(&mut self, set: &Set, record: u32) {
        let (at, bit) = set.map_at(record);
        self.write_word(at, self.word(at) | bit);
    }

    /// "Unused record: zeros"
    pub fn make_unused(&mut self, set: &Set, record: u32) {
        let (at, bit) = set.map_at(record);
        self.write_word(at, self.word(at) & !bit);
        self.write_words(set.record_at(record), &vec![0; set.record_length()]);
    }

    /// "a step ... follows one to an unused record": 18. "0 = none": there is nothing to follow.
    pub fn follow(&self, set: &Set, link: u32) -> Result<(), Refusal> {
        if link == 0 || self.live(set, link) {
            Ok(())
        } else {
            Err(Refusal::BROKEN)
        }
    }

    /// "a step reads a link above C": 18.
    fn link(&self, at: usize, capacity: u32) -> Result<u32, Refusal> {
        within(self.number(at), capacity)
    }

    /// The number of a freed record: a link, "though one word".
    pub fn freed(&self, at: usize, set: &Set) -> Result<u32, Refusal> {
        within(u32::from(self.word(at)), set.capacity)
    }

    /// "reads a count above its set's capacity": 18.
    fn count(&self, at: usize, capacity: u32) -> Result<u16, Refusal> {
        within(u32::from(self.word(at)), capacity)?;
        Ok(self.word(at))
    }

    /// "A head, a pair of links or the five synonym words are read whole, in stored order, when
    /// first used. A synonym count is held against the master's capacity"
    pub fn synonyms(&self, set: &Set, record: u32) -> Result<Synonyms, Refusal> {
        let at = set.record_at(record);
        let count = self.count(at, set.capacity)?;
        let backward = not_own(self.link(at + 1, set.capacity)?, record)?;
        let forward = not_own(self.link(at + 3, set.capacity)?, record)?;
        Ok(Synonyms { count, backward, forward })
    }

    /// "a head's count and links [are held] against the detail's" capacity
    pub fn head(&self, set: &Set, record: u32, head: usize) -> Result<Head, Refusal> {
        let (at, capacity) = (set.head_at(record, head), set.heads[head]);
        let count = self.count(at, capacity)?;
        let last = self.link(at + 1, capacity)?;
        let first = self.link(at + 3, capacity)?;
        Ok(Head { count, last, first })
    }

    pub fn links(&self, set: &Set, record: u32, path: usize) -> Result<Links, Refusal> {
        let at = set.links_at(record, path);
        let backward = self.link(at, set.capacity)?;
        let forward = self.link(at + 2, set.capacity)?;
        Ok(Links { backward, forward })
    }

    pub fn write_synonyms(&mut self, set: &Set, record: u32, synonyms: &Synonyms) {
        self.write_word(set.record_at(record), synonyms.count);
        self.write_synonym_backward(set, record, synonyms.backward);
        self.write_synonym_forward(set, record, synonyms.forward);
    }

    /// Overwrites a primary's last or a secondary's previous; nothing is done for "none".
    pub fn write_synonym_backward(&mut self, set: &Set, record: u32, link: u32) {
        if record != 0 {
            self.write_number(set.record_at(record) + 1, link);
        }
    }

    /// Overwrites a primary's first or a secondary's next; nothing is done for "none".
    pub fn write_synonym_forward(&mut self, set: &Set, record: u32, link: u32) {
        if record != 0 {
            self.write_number(set.record_at(record) + 3, link);
        }
    }

    pub fn write_head(&mut self, set: &Set, record: u32, head: usize, words: &Head) {
        let at = set.head_at(record, head);
        self.write_word(at, words.count);
        self.write_number(at + 1, words.last);
        self.write_number(at + 3, words.first);
    }

    /// Overwrites a line's backward link; nothing is done for "none".
    pub fn write_backward(&mut self, set: &Set, line: u32, path: usize, link: u32) {
        if line != 0 {
            self.write_number(set.links_at(line, path), link);
        }
    }

    /// Overwrites a line's forward link; nothing is done for "none".
    pub fn write_forward(&mut self, set: &Set, line: u32, path: usize, link: u32) {
        if line != 0 {
            self.write_number(set.links_at(line, path) + 2, link);
        }
    }
}

fn within(number: u32, capacity: u32) -> Result<u32, Refusal> {
    if number <= capacity {
        Ok(number)
    } else {
        Err(Refusal::BROKEN)
    }
}

/// "a synonym link to its own record": 18.
pub fn not_own(link: u32, record: u32) -> Result<u32, Refusal> {
    if link != record {
        Ok(link)
    } else {
        Err(Refusal::BROKEN)
    }
}
