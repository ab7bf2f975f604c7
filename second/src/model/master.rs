//! Document 01, "Master steps".

use super::area::{not_own, Base, Synonyms};
use super::root::{Field, Set, Type};
use super::Refusal;

/// "Primary address for key number v and capacity C: ((v + C − 1) mod C) + 1."
pub fn primary_address(set: &Set, key: &[u16]) -> u32 {
    let capacity = u64::from(set.capacity);
    let address = (key_number(key_field(set).item.kind, key) + capacity - 1) % capacity + 1;
    address as u32
}

fn key_number(kind: Type, key: &[u16]) -> u64 {
    match kind {
        // "For I and K, v is the key's words as an unsigned number, less the top bit of a
        // two-word key."
        Type::I | Type::K => {
            let number = key.iter().fold(0, |number, &word| number << 16 | u64::from(word));
            number & if key.len() == 2 { 0x7FFF_FFFF } else { 0xFFFF }
        }
        // "For X (H), start at 0 and for each word w take (257v + w) mod 2^31."
        Type::X => key.iter().fold(0, |v, &w| (257 * v + u64::from(w)) % (1 << 31)),
    }
}

/// A master's key.
pub fn key_field(set: &Set) -> &Field {
    set.key.as_ref().expect("a master has a key")
}

impl Base<'_> {
    fn key(&self, set: &Set, record: u32) -> &[u16] {
        key_field(set).of(self.entry(set, record))
    }

    /// "Find: look at the primary address; unused, or held by a secondary, means absent;
    /// otherwise compare along the synonym chain."
    pub fn find_entry(&self, set: &Set, key: &[u16]) -> Result<Option<u32>, Refusal> {
        let primary = primary_address(set, key);
        if !self.live(set, primary) || self.synonyms(set, primary)?.count == 0 {
            return Ok(None);
        }
        let mut record = primary;
        let mut visited = 1;
        while self.key(set, record) != key {
            record = self.synonyms(set, record)?.forward;
            if record == 0 {
                return Ok(None);
            }
            self.follow(set, record)?;
            visited += 1;
            // "visits more than C records in a walk"
            if visited > set.capacity {
                return Err(Refusal::BROKEN);
            }
        }
        Ok(Some(record))
    }

    /// "Put at address h", after a Find that told the key absent; `full` if there is no unused
    /// record. Answers the record that the new entry got.
    pub fn put_entry(&mut self, set: &Set, entry: &[u16], full: Refusal) -> Result<u32, Refusal> {
        let h = primary_address(set, key_field(set).of(entry));
        let alone = Synonyms { count: 1, backward: 0, forward: 0 };
        // "unused, take it as primary"
        if !self.live(set, h) {
            self.take_record(set, h, &alone, entry);
            return Ok(h);
        }
        let free = self.unused_record(set, h).ok_or(full)?;
        let synonyms = self.synonyms(set, h)?;
        if synonyms.count != 0 {
            self.join_chain(set, h, synonyms, free, entry)?;
            return Ok(free);
        }
        // "Held by a secondary, move that one, heads included, to such a record, mend its links,
        // and take h."
        self.move_secondary(set, h, synonyms, free)?;
        self.take_record(set, h, &alone, entry);
        Ok(h)
    }

    /// "the first unused record going up from h, wrapping past C to 1 (H)"
    fn unused_record(&self, set: &Set, h: u32) -> Option<u32> {
        let mut going_up = (h + 1..=set.capacity).chain(1..h);
        going_up.find(|&record| !self.live(set, record))
    }

    /// "Held by a primary, ... join the chain's end (behind last; behind h if that is 0)."
    fn join_chain(
        &mut self,
        set: &Set,
        h: u32,
        primary: Synonyms,
        record: u32,
        entry: &[u16],
    ) -> Result<(), Refusal> {
        let last = primary.backward;
        self.follow(set, last)?;
        let behind = if last == 0 { h } else { last };
        self.write_synonym_forward(set, behind, record);
        self.write_word(set.record_at(h), primary.count + 1);
        self.write_synonym_backward(set, h, record);
        let secondary = Synonyms { count: 0, backward: behind, forward: 0 };
        self.take_record(set, record, &secondary, entry);
        Ok(())
    }

    /// A new entry's own record, whole: synonym words, heads of zeros, the entry. "A master
    /// record goes live ... at its step's end".
    fn take_record(&mut self, set: &Set, record: u32, synonyms: &Synonyms, entry: &[u16]) {
        self.write_words(set.record_at(record), &vec![0; set.record_length()]);
        self.write_synonyms(set, record, synonyms);
        self.write_words(set.entry_at(record), entry);
        self.make_live(set, record);
    }

    /// "A put's move reads the moved one's synonym words, behind, ahead and, if its last changes,
    /// primary ...; heads and entry are copied unread."
    fn move_secondary(
        &mut self,
        set: &Set,
        from: u32,
        moved: Synonyms,
        to: u32,
    ) -> Result<(), Refusal> {
        self.follow(set, moved.backward)?;
        self.follow(set, moved.forward)?;
        // Behind names the moved one, and so does ahead or, if it is the chain's last, the primary.
        let ahead_or_primary = if moved.forward != 0 {
            moved.forward
        } else {
            let primary = self.primary_of(set, from)?;
            self.synonyms(set, primary)?;
            primary
        };
        self.write_synonym_forward(set, moved.backward, to);
        self.write_synonym_backward(set, ahead_or_primary, to);
        self.copy_record(set, from, to, &moved);
        self.make_live(set, to);
        Ok(())
    }

    /// "a secondary's primary is found from its key; that address counts as a link"
    fn primary_of(&self, set: &Set, secondary: u32) -> Result<u32, Refusal> {
        let primary = primary_address(set, self.key(set, secondary));
        self.follow(set, not_own(primary, secondary)?)?;
        Ok(primary)
    }

    /// The record moved, heads and entry as they stand, with these synonym words.
    fn copy_record(&mut self, set: &Set, from: u32, to: u32, synonyms: &Synonyms) {
        let record = self.words(set.record_at(from), set.record_length()).to_vec();
        self.write_words(set.record_at(to), &record);
        self.write_synonyms(set, to, synonyms);
    }

    /// "a delete stops reading them [the heads] at the first count that isn't 0"
    pub fn has_lines(&self, set: &Set, record: u32) -> Result<bool, Refusal> {
        for head in 0..set.heads.len() {
            if self.head(set, record, head)?.count != 0 {
                return Ok(true);
            }
        }
        Ok(false)
    }

    /// "Delete: a secondary is unlinked; a primary whose first isn't 0 is replaced by that one".
    /// The heads have been read.
    pub fn delete_entry(&mut self, set: &Set, record: u32) -> Result<(), Refusal> {
        let synonyms = self.synonyms(set, record)?;
        if synonyms.count == 0 {
            self.unlink_secondary(set, record, synonyms)
        } else if synonyms.forward != 0 {
            self.replace_primary(set, record, synonyms)
        } else {
            self.make_unused(set, record);
            Ok(())
        }
    }

    /// "moved to its address: count less 1, last (0 if it was the one moved), first its next".
    /// The move reads "the moved one's synonym words, then ahead".
    fn replace_primary(&mut self, set: &Set, h: u32, primary: Synonyms) -> Result<(), Refusal> {
        let first = primary.forward;
        self.follow(set, first)?;
        let next = self.synonyms(set, first)?.forward;
        self.follow(set, next)?;
        let last = if primary.backward == first { 0 } else { primary.backward };
        let synonyms = Synonyms { count: primary.count - 1, backward: last, forward: next };
        self.write_synonym_backward(set, next, h);
        self.copy_record(set, first, h, &synonyms);
        self.make_unused(set, first);
        Ok(())
    }

    /// Reads "synonym words, behind, ahead, primary" and "writes behind, ahead, ... primary, own
    /// record".
    fn unlink_secondary(
        &mut self,
        set: &Set,
        record: u32,
        secondary: Synonyms,
    ) -> Result<(), Refusal> {
        let (behind, ahead) = (secondary.backward, secondary.forward);
        self.follow(set, behind)?;
        self.follow(set, ahead)?;
        let primary = self.primary_of(set, record)?;
        // "must lower 0": 18.
        let lowered = self.synonyms(set, primary)?.count.checked_sub(1).ok_or(Refusal::BROKEN)?;
        self.write_synonym_forward(set, behind, ahead);
        self.write_synonym_backward(set, ahead, behind);
        self.write_word(set.record_at(primary), lowered);
        if ahead == 0 {
            let last = if behind == primary { 0 } else { behind };
            self.write_synonym_backward(set, primary, last);
        }
        self.make_unused(set, record);
        Ok(())
    }
}
