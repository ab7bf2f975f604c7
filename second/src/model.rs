//! The second program: the calls of document 01, worked again from the document's words alone, on
//! data of its own. Sentences in quotes are document 01's. It shares nothing with the engine.

mod area;
mod detail;
mod master;
mod root;

use area::{Base, Links};
use master::key_field;
use root::{Field, Kind, Root, Set};
use std::borrow::Cow;

/// "ten status words"
pub type Status = [u16; 10];

/// "the lines passed on each of four paths"
pub type Passed = [u16; 4];

/// "A cursor: current record, current path, saved back, saved forward; fresh is all 0."
#[derive(Clone, Copy, Default)]
pub struct Cursor {
    pub record: u32,
    pub path: u32,
    pub back: u32,
    pub forward: u32,
}

/// "The 16 cursors are one array that travels by value."
pub type Cursors = [Cursor; 16];

/// A condition word: the number that a call is refused with.
#[derive(Clone, Copy)]
pub struct Refusal(i16);

impl Refusal {
    const ROOT: Refusal = Refusal(-91);
    const AREA: Refusal = Refusal(-92);
    const SET: Refusal = Refusal(-21);
    const CURSOR: Refusal = Refusal(-93);
    const AUTOMATIC: Refusal = Refusal(-24);
    const MODE: Refusal = Refusal(-31);
    const NO_SEARCH_ITEM: Refusal = Refusal(-52);
    const LENGTH: Refusal = Refusal(-95);
    const NO_PATH: Refusal = Refusal(-94);
    const SHORT_BUFFER: Refusal = Refusal(50);
    const BEGINNING_OF_FILE: Refusal = Refusal(10);
    const END_OF_FILE: Refusal = Refusal(11);
    const RECORD_ZERO: Refusal = Refusal(12);
    const RECORD_ABOVE: Refusal = Refusal(13);
    const BEGINNING_OF_CHAIN: Refusal = Refusal(14);
    const END_OF_CHAIN: Refusal = Refusal(15);
    const FULL: Refusal = Refusal(16);
    const NO_ENTRY: Refusal = Refusal(17);
    const BROKEN: Refusal = Refusal(18);
    const CRITICAL_ITEM: Refusal = Refusal(41);
    const KEY_PRESENT: Refusal = Refusal(43);
    const HAS_LINES: Refusal = Refusal(44);

    /// "no manual entry (100 + path)"
    fn no_manual_entry(path: i16) -> Refusal {
        Refusal(100 + path)
    }

    /// "automatic master full (300 + path)"
    fn automatic_full(path: i16) -> Refusal {
        Refusal(300 + path)
    }

    /// "The word is signed, stored as two's complement. On each: word 1 the number, nine zeros".
    fn status(self) -> Status {
        let mut status = [0; 10];
        status[0] = self.0 as u16;
        status
    }
}

/// The area's length for these root words; `None` if they are refused with −91.
pub fn area_length(root: &[u16]) -> Option<usize> {
    Root::read(root).map(|root| root.area_length())
}

/// Works `steps` on a base: −91 and −92 first; "nothing stored" on a refusal.
fn work<T>(
    root: &[u16],
    area: &mut [u16],
    steps: impl FnOnce(&mut Base) -> Result<T, Refusal>,
) -> Result<T, Refusal> {
    let root = Root::read(root).ok_or(Refusal::ROOT)?;
    if area.len() != root.area_length() {
        return Err(Refusal::AREA);
    }
    let mut base = Base { root: &root, area: Cow::Borrowed(area) };
    let answer = steps(&mut base)?;
    if let Cow::Owned(copy) = base.area {
        area.copy_from_slice(&copy);
    }
    Ok(answer)
}

fn answer(worked: Result<Status, Refusal>) -> Status {
    worked.unwrap_or_else(Refusal::status)
}

/// "no such set": −21. Answers the set and its index, which is its cursor's, too.
fn choose_set(root: &Root, number: u16) -> Result<(&Set, usize), Refusal> {
    let index = usize::from(number).checked_sub(1).ok_or(Refusal::SET)?;
    Ok((root.sets.get(index).ok_or(Refusal::SET)?, index))
}

/// "this set's cursor: path above its paths, or current record above C": −93.
fn check_cursor(set: &Set, cursor: Cursor) -> Result<(), Refusal> {
    if cursor.path as usize > set.paths.len() || cursor.record > set.capacity {
        return Err(Refusal::CURSOR);
    }
    Ok(())
}

/// "put, update, delete on an automatic master": −24.
fn check_kind(set: &Set) -> Result<(), Refusal> {
    if set.kind == Kind::Automatic {
        return Err(Refusal::AUTOMATIC);
    }
    Ok(())
}

/// "put, update: entry length wrong; find, mode 7: value length wrong": −95.
fn check_length(words: &[u16], length: usize) -> Result<(), Refusal> {
    if words.len() != length {
        return Err(Refusal::LENGTH);
    }
    Ok(())
}

/// "Status on success: 0; entry length ...; record (2 words ...); find: chain count, master get
/// and put: first synonym word, else 0 (2 words); saved back; saved forward."
fn success(entry_length: usize, record: u32, count: u16, saved: Links) -> Status {
    let [record, count, back, forward] =
        [record, u32::from(count), saved.backward, saved.forward].map(two_words);
    let length = entry_length as u16;
    [0, length, record[0], record[1], count[0], count[1], back[0], back[1], forward[0], forward[1]]
}

/// "every two-word number has its high word first"
fn two_words(number: u32) -> [u16; 2] {
    [(number >> 16) as u16, number as u16]
}

/// "Making a base takes only root and area and answers the status. ... A new base is all zeros."
pub fn make(root: &[u16], area: &mut [u16]) -> Status {
    answer(work(root, area, |base| {
        base.area.to_mut().fill(0);
        Ok([0; 10])
    }))
}

/// "Find sets the path, record 0, back = last, forward = first; an empty chain of a present
/// master succeeds with count 0."
pub fn find(
    root: &[u16],
    area: &mut [u16],
    cursors: &mut Cursors,
    set: u16,
    item: u16,
    value: &[u16],
) -> Status {
    answer(work(root, area, |base| {
        let (set, index) = choose_set(base.root, set)?;
        if set.is_master() {
            return Err(Refusal::SET);
        }
        check_cursor(set, cursors[index])?;
        // "find: not a search item of the set"
        let number = set.paths.iter().position(|path| path.search.number == item);
        let number = number.ok_or(Refusal::NO_SEARCH_ITEM)?;
        let path = &set.paths[number];
        check_length(value, path.search.item.length)?;
        let master = &base.root.sets[path.master];
        // "17 also for find without a master entry"
        let holder = base.find_entry(master, value)?.ok_or(Refusal::NO_ENTRY)?;
        let head = base.head(master, holder, path.head)?;
        let (back, forward) = (head.last, head.first);
        cursors[index] = Cursor { record: 0, path: number as u32 + 1, back, forward };
        Ok(success(0, 0, head.count, Links { backward: back, forward }))
    }))
}

/// What a get is asked for.
#[derive(Clone, Copy)]
pub struct Wanted<'v> {
    pub mode: u16,
    pub record: u32,
    pub value: &'v [u16],
}

/// Reads an entry. "A get buffer keeps every word after the entry."
pub fn get(
    root: &[u16],
    area: &mut [u16],
    cursors: &mut Cursors,
    set: u16,
    wanted: Wanted,
    buffer: &mut [u16],
) -> Status {
    answer(work(root, area, |base| {
        let (set, index) = choose_set(base.root, set)?;
        let cursor = cursors[index];
        check_cursor(set, cursor)?;
        check_mode(set, cursor, wanted)?;
        // "get: buffer shorter than the entry"
        if buffer.len() < set.entry_length {
            return Err(Refusal::SHORT_BUFFER);
        }
        let record = choose_record(base, set, cursor, wanted)?;
        let (cursor, status) = make_current(base, set, cursor, record)?;
        cursors[index] = cursor;
        buffer[..set.entry_length].copy_from_slice(base.entry(set, record));
        Ok(status)
    }))
}

/// The rows −31, −95 and −94 for a get.
fn check_mode(set: &Set, cursor: Cursor, wanted: Wanted) -> Result<(), Refusal> {
    match (wanted.mode, set.is_master()) {
        (1..=4, _) => Ok(()),
        // "mode 5, 6 with current path 0"
        (5 | 6, false) if cursor.path == 0 => Err(Refusal::NO_PATH),
        (5 | 6, false) => Ok(()),
        (7, true) => check_length(wanted.value, key_field(set).item.length),
        // "get mode not 1..7; 5, 6 on a master; 7 on a detail"
        _ => Err(Refusal::MODE),
    }
}

/// The table of get modes: the record that is read, or why there is none.
fn choose_record(base: &Base, set: &Set, cursor: Cursor, wanted: Wanted) -> Result<u32, Refusal> {
    let live = |record: &u32| base.live(set, *record);
    match wanted.mode {
        // "the current record", "17 if none or unused"
        1 => live_record(base, set, cursor.record),
        // "lowest live above current", "11"
        2 => (cursor.record + 1..=set.capacity).find(live).ok_or(Refusal::END_OF_FILE),
        // "highest live below current", "10"
        3 => (1..cursor.record).rev().find(live).ok_or(Refusal::BEGINNING_OF_FILE),
        // "the given record", "12 for 0, 13 above C, 17 unused"
        4 if wanted.record == 0 => Err(Refusal::RECORD_ZERO),
        4 if wanted.record > set.capacity => Err(Refusal::RECORD_ABOVE),
        4 => live_record(base, set, wanted.record),
        // "saved forward (detail)", "15 if 0"
        5 => saved_record(base, set, cursor.forward, Refusal::END_OF_CHAIN),
        // "saved back (detail)", "14 if 0"
        6 => saved_record(base, set, cursor.back, Refusal::BEGINNING_OF_CHAIN),
        // "the given key (master)", "17 if absent"
        _ => base.find_entry(set, wanted.value)?.ok_or(Refusal::NO_ENTRY),
    }
}

/// The record, or 17 if it is "none or unused".
fn live_record(base: &Base, set: &Set, record: u32) -> Result<u32, Refusal> {
    if record == 0 || !base.live(set, record) {
        return Err(Refusal::NO_ENTRY);
    }
    Ok(record)
}

/// A link that the cursor has saved, followed.
fn saved_record(base: &Base, set: &Set, link: u32, end: Refusal) -> Result<u32, Refusal> {
    match link {
        0 => Err(end),
        link if link > set.capacity => Err(Refusal::BROKEN),
        link => base.follow(set, link).map(|()| link),
    }
}

/// "Get and put make their record current and save its links on the current path (0 on path 0 and
/// for masters)."
fn make_current(
    base: &Base,
    set: &Set,
    cursor: Cursor,
    record: u32,
) -> Result<(Cursor, Status), Refusal> {
    let count = if set.is_master() { base.synonyms(set, record)?.count } else { 0 };
    let saved = match cursor.path {
        0 => Links::default(),
        path => base.links(set, record, path as usize - 1)?,
    };
    let (back, forward) = (saved.backward, saved.forward);
    let status = success(set.entry_length, record, count, saved);
    Ok((Cursor { record, path: cursor.path, back, forward }, status))
}

/// "put also answers the lines passed on each of four paths (0 for a path that is absent or
/// unsorted, and on refusal)".
pub fn put(
    root: &[u16],
    area: &mut [u16],
    cursors: &mut Cursors,
    set: u16,
    entry: &[u16],
) -> (Status, Passed) {
    let worked = work(root, area, |base| {
        let (set, index) = choose_set(base.root, set)?;
        check_cursor(set, cursors[index])?;
        check_kind(set)?;
        check_length(entry, set.entry_length)?;
        let (record, passed) = if set.is_master() {
            (put_master(base, set, entry)?, [0; 4])
        } else {
            let placed = base.put_line(set, entry)?;
            (placed.record, placed.passed)
        };
        let (cursor, status) = make_current(base, set, cursors[index], record)?;
        cursors[index] = cursor;
        Ok((status, passed))
    });
    worked.unwrap_or_else(|refusal| (refusal.status(), [0; 4]))
}

/// "43, then 16: master put: key present; no unused record"
fn put_master(base: &mut Base, set: &Set, entry: &[u16]) -> Result<u32, Refusal> {
    if base.find_entry(set, key_field(set).of(entry))?.is_some() {
        return Err(Refusal::KEY_PRESENT);
    }
    base.put_entry(set, entry, Refusal::FULL)
}

/// "Update and delete leave the cursor ... After update and delete, words 3 to 10 are 0 (H)".
pub fn update(
    root: &[u16],
    area: &mut [u16],
    cursors: &Cursors,
    set: u16,
    entry: &[u16],
) -> Status {
    answer(work(root, area, |base| {
        let (set, index) = choose_set(base.root, set)?;
        check_cursor(set, cursors[index])?;
        check_kind(set)?;
        check_length(entry, set.entry_length)?;
        // "17 also ... for update, delete on no live record"
        let record = live_record(base, set, cursors[index].record)?;
        // "update would change a key, search or sort item"
        let changes = |field: &Field| field.of(entry) != field.of(base.entry(set, record));
        if fixed_items(set).any(changes) {
            return Err(Refusal::CRITICAL_ITEM);
        }
        base.write_words(set.entry_at(record), entry);
        Ok(success(set.entry_length, 0, 0, Links::default()))
    }))
}

/// The key, or every search and sort item.
fn fixed_items(set: &Set) -> impl Iterator<Item = &Field> {
    let of_paths = set.paths.iter().flat_map(|path| path.sort.iter().chain([&path.search]));
    set.key.iter().chain(of_paths)
}

/// "after a delete, reading on works": the cursor stays.
pub fn delete(root: &[u16], area: &mut [u16], cursors: &Cursors, set: u16) -> Status {
    answer(work(root, area, |base| {
        let (set, index) = choose_set(base.root, set)?;
        check_cursor(set, cursors[index])?;
        check_kind(set)?;
        let record = live_record(base, set, cursors[index].record)?;
        if !set.is_master() {
            base.delete_line(set, record)?;
        } else if base.has_lines(set, record)? {
            // "master delete: a head's count isn't 0"
            return Err(Refusal::HAS_LINES);
        } else {
            base.delete_entry(set, record)?;
        }
        Ok([0; 10])
    }))
}
