//! The six calls written by hand: ordinary safe Rust on the same words as the engine, with the same
//! checks in the same order, and a journal in place of a copy. It is what the engine is measured
//! against, so it takes no short cut that the engine's contract forbids and leaves out none that a
//! careful programmer would take: one pass over the root, no allocation in a call that only reads,
//! whole words of the map where a free record is looked for.

mod area;
mod detail;
mod master;
mod root;

use area::{Head, Links, Work};
use root::{Kind, Master, Root, Shape};

/// Why a call is refused: the condition word, before it is stored as two's complement.
#[derive(Clone, Copy)]
pub struct Refusal(i16);

const BAD_ROOT: Refusal = Refusal(-91);
const BAD_AREA: Refusal = Refusal(-92);
const NO_SET: Refusal = Refusal(-21);
const BAD_CURSOR: Refusal = Refusal(-93);
const IS_AUTOMATIC: Refusal = Refusal(-24);
const BAD_MODE: Refusal = Refusal(-31);
const NO_SEARCH_ITEM: Refusal = Refusal(-52);
const BAD_LENGTH: Refusal = Refusal(-95);
const NO_PATH: Refusal = Refusal(-94);
const SHORT_BUFFER: Refusal = Refusal(50);
const BEGIN_OF_SET: Refusal = Refusal(10);
const END_OF_SET: Refusal = Refusal(11);
const RECORD_ZERO: Refusal = Refusal(12);
const RECORD_ABOVE: Refusal = Refusal(13);
const BEGIN_OF_CHAIN: Refusal = Refusal(14);
const END_OF_CHAIN: Refusal = Refusal(15);
const SET_FULL: Refusal = Refusal(16);
const NO_RECORD: Refusal = Refusal(17);
const BROKEN: Refusal = Refusal(18);
const FIXED_ITEM: Refusal = Refusal(41);
const KEY_PRESENT: Refusal = Refusal(43);
const HAS_LINES: Refusal = Refusal(44);
const NO_MASTER: i16 = 100;
const MASTER_FULL: i16 = 300;

type Status = [u16; 10];

/// A set's cursor: current record, current path, saved back, saved forward.
#[derive(Clone, Copy)]
struct Cursor {
    record: u32,
    path: u32,
    back: u32,
    forward: u32,
}

/// The call's set: its number from 0, its description, and the root that it belongs to.
struct Named<'r> {
    root: Root<'r>,
    set: usize,
}

/// The area's length for a root that keeps its rules.
pub fn area_length(root: &[u16]) -> Option<usize> {
    Root::read(root).map(|root| root.area_length())
}

/// −91 and −92.
fn know<'r>(root: &'r [u16], area: &[u16]) -> Result<Root<'r>, Refusal> {
    let root = Root::read(root).ok_or(BAD_ROOT)?;
    if root.area_length() != area.len() {
        return Err(BAD_AREA);
    }
    Ok(root)
}

/// −91, −92 and −21.
fn name<'r>(root: &'r [u16], area: &[u16], set: u16) -> Result<Named<'r>, Refusal> {
    let root = know(root, area)?;
    let set = usize::from(set).wrapping_sub(1);
    if set >= root.set_count() {
        return Err(NO_SET);
    }
    Ok(Named { root, set })
}

impl Named<'_> {
    /// −93, and the cursor.
    fn cursor(&self, cursors: &[u32; 64]) -> Result<Cursor, Refusal> {
        let [record, path, back, forward] = cursors.as_chunks::<4>().0[self.set];
        let stated = self.root.stated(self.set);
        if path > u32::from(stated.path_count()) || record > u32::from(stated.capacity()) {
            return Err(BAD_CURSOR);
        }
        Ok(Cursor { record, path, back, forward })
    }

    fn is_master(&self) -> bool {
        self.root.stated(self.set).kind() != Kind::Detail
    }
}

fn save(cursors: &mut [u32; 64], set: usize, cursor: Cursor) {
    let Cursor { record, path, back, forward } = cursor;
    cursors.as_chunks_mut::<4>().0[set] = [record, path, back, forward];
}

fn success(length: usize, record: u32, count: u16, links: Links) -> Status {
    let [r, b, f] = [record, links.back, links.forward].map(|n| [(n >> 16) as u16, n as u16]);
    [0, length as u16, r[0], r[1], 0, count, b[0], b[1], f[0], f[1]]
}

fn refused(Refusal(number): Refusal) -> Status {
    let mut status = [0; 10];
    status[0] = number as u16;
    status
}

fn answer(worked: Result<Status, Refusal>) -> Status {
    worked.unwrap_or_else(refused)
}

#[inline(never)]
pub fn make(root: &[u16], area: &mut [u16], status: &mut [u16]) -> u16 {
    let Ok(status) = <&mut Status>::try_from(status) else { return 1 };
    *status = answer(know(root, area).map(|_| {
        area.fill(0);
        [0; 10]
    }));
    0
}

#[inline(never)]
pub fn find(
    root: &[u16],
    area: &[u16],
    cursors: &mut [u32],
    set: u16,
    item: u16,
    value: &[u16],
    status: &mut [u16],
) -> u16 {
    let Ok(cursors) = <&mut [u32; 64]>::try_from(cursors) else { return 1 };
    let Ok(status) = <&mut Status>::try_from(status) else { return 1 };
    *status = answer(find_chain(root, area, cursors, set, item, value));
    0
}

fn find_chain(
    root: &[u16],
    area: &[u16],
    cursors: &mut [u32; 64],
    set: u16,
    item: u16,
    value: &[u16],
) -> Result<Status, Refusal> {
    let named = name(root, area, set)?;
    if named.is_master() {
        return Err(NO_SET);
    }
    named.cursor(cursors)?;
    let path = named.root.search_path(named.set, item).ok_or(NO_SEARCH_ITEM)?;
    let to = named.root.path(named.set, path);
    if value.len() != to.search.length {
        return Err(BAD_LENGTH);
    }
    let holder = master::find(area, &to.master, value)?.ok_or(NO_RECORD)?;
    let capacity = u32::from(named.root.stated(named.set).capacity());
    let Head { count, last, first } =
        area::head(area, to.master.shape.head_at(holder, to.head), capacity)?;
    let cursor = Cursor { record: 0, path: path as u32 + 1, back: last, forward: first };
    save(cursors, named.set, cursor);
    Ok(success(0, 0, count, Links { back: last, forward: first }))
}

/// What a get is asked for.
#[derive(Clone, Copy)]
pub struct Wanted<'v> {
    pub mode: u16,
    pub record: u32,
    pub value: &'v [u16],
}

#[inline(never)]
pub fn get(
    root: &[u16],
    area: &[u16],
    cursors: &mut [u32],
    set: u16,
    wanted: Wanted,
    buffer: &mut [u16],
    status: &mut [u16],
) -> u16 {
    let Ok(cursors) = <&mut [u32; 64]>::try_from(cursors) else { return 1 };
    let Ok(status) = <&mut Status>::try_from(status) else { return 1 };
    *status = answer(get_entry(root, area, cursors, set, wanted, buffer));
    0
}

fn get_entry(
    root: &[u16],
    area: &[u16],
    cursors: &mut [u32; 64],
    set: u16,
    wanted: Wanted,
    buffer: &mut [u16],
) -> Result<Status, Refusal> {
    let named = name(root, area, set)?;
    let cursor = named.cursor(cursors)?;
    let shape = named.root.shape(named.set);
    let (record, count) = if named.is_master() {
        let master = named.root.master(named.set);
        let record = choose_entry(area, &master, cursor, wanted, buffer.len())?;
        (record, area::synonyms(area, &shape, record)?.count)
    } else {
        (choose_line(area, &shape, cursor, wanted, buffer.len())?, 0)
    };
    let links = match cursor.path {
        0 => Links::NONE,
        path => area::links(area, &shape, record, path as usize - 1)?,
    };
    buffer[..shape.entry].copy_from_slice(area::entry(area, &shape, record));
    let Links { back, forward } = links;
    save(cursors, named.set, Cursor { record, path: cursor.path, back, forward });
    Ok(success(shape.entry, record, count, links))
}

/// Of a master: −31, −95 and 50, then the record.
fn choose_entry(
    area: &[u16],
    master: &Master,
    cursor: Cursor,
    wanted: Wanted,
    room: usize,
) -> Result<u32, Refusal> {
    match wanted.mode {
        1..=4 => {}
        7 if wanted.value.len() == master.key.length => {}
        7 => return Err(BAD_LENGTH),
        _ => return Err(BAD_MODE),
    }
    if room < master.shape.entry {
        return Err(SHORT_BUFFER);
    }
    match wanted.mode {
        7 => master::find(area, master, wanted.value)?.ok_or(NO_RECORD),
        _ => choose_record(area, &master.shape, cursor, wanted),
    }
}

/// Of a detail: −31, −94 and 50, then the record.
fn choose_line(
    area: &[u16],
    shape: &Shape,
    cursor: Cursor,
    wanted: Wanted,
    room: usize,
) -> Result<u32, Refusal> {
    match wanted.mode {
        1..=4 => {}
        5 | 6 if cursor.path == 0 => return Err(NO_PATH),
        5 | 6 => {}
        _ => return Err(BAD_MODE),
    }
    if room < shape.entry {
        return Err(SHORT_BUFFER);
    }
    match wanted.mode {
        5 => saved_record(area, shape, cursor.forward, END_OF_CHAIN),
        6 => saved_record(area, shape, cursor.back, BEGIN_OF_CHAIN),
        _ => choose_record(area, shape, cursor, wanted),
    }
}

/// Modes 1 to 4.
fn choose_record(
    area: &[u16],
    shape: &Shape,
    cursor: Cursor,
    wanted: Wanted,
) -> Result<u32, Refusal> {
    let live = |record: &u32| area::live(area, shape, *record);
    match wanted.mode {
        1 => live_record(area, shape, cursor.record),
        2 => (cursor.record + 1..=shape.capacity).find(live).ok_or(END_OF_SET),
        3 => (1..cursor.record).rev().find(live).ok_or(BEGIN_OF_SET),
        _ if wanted.record == 0 => Err(RECORD_ZERO),
        _ if wanted.record > shape.capacity => Err(RECORD_ABOVE),
        _ => live_record(area, shape, wanted.record),
    }
}

fn live_record(area: &[u16], shape: &Shape, record: u32) -> Result<u32, Refusal> {
    if record == 0 || !area::live(area, shape, record) {
        return Err(NO_RECORD);
    }
    Ok(record)
}

fn saved_record(area: &[u16], shape: &Shape, link: u32, end: Refusal) -> Result<u32, Refusal> {
    if link == 0 {
        return Err(end);
    }
    if link > shape.capacity || !area::live(area, shape, link) {
        return Err(BROKEN);
    }
    Ok(link)
}

#[inline(never)]
pub fn put(
    root: &[u16],
    area: &mut [u16],
    cursors: &mut [u32],
    set: u16,
    entry: &[u16],
    status: &mut [u16],
    passed: &mut [u16],
) -> u16 {
    let Ok(cursors) = <&mut [u32; 64]>::try_from(cursors) else { return 1 };
    let Ok(status) = <&mut Status>::try_from(status) else { return 1 };
    let Ok(passed) = <&mut [u16; 4]>::try_from(passed) else { return 1 };
    *passed = [0; 4];
    *status = answer(put_entry(root, area, cursors, set, entry, passed));
    0
}

fn put_entry(
    root: &[u16],
    area: &mut [u16],
    cursors: &mut [u32; 64],
    set: u16,
    entry: &[u16],
    passed: &mut [u16; 4],
) -> Result<Status, Refusal> {
    let named = name(root, area, set)?;
    let cursor = named.cursor(cursors)?;
    let (record, count) = if named.is_master() {
        put_master(area, &named.root.master(named.set), entry)?
    } else {
        let (record, lines) = put_line(area, &named, entry)?;
        *passed = lines;
        (record, 0)
    };
    let links = match cursor.path {
        0 => Links::NONE,
        path => area::peek_links(area, &named.root.shape(named.set), record, path as usize - 1),
    };
    let Links { back, forward } = links;
    save(cursors, named.set, Cursor { record, path: cursor.path, back, forward });
    Ok(success(entry.len(), record, count, links))
}

/// −24, −95, 43, then the put. Every master step reads before it writes: no journal.
fn put_master(area: &mut [u16], master: &Master, entry: &[u16]) -> Result<(u32, u16), Refusal> {
    if master.automatic {
        return Err(IS_AUTOMATIC);
    }
    if entry.len() != master.shape.entry {
        return Err(BAD_LENGTH);
    }
    if master::find(area, master, master.key.of(entry))?.is_some() {
        return Err(KEY_PRESENT);
    }
    let record = Work::unkept(area).put_entry(master, entry, SET_FULL)?;
    Ok((record, area[master.shape.at(record)]))
}

/// −95, then the put; a refusal on any path is undone by the journal.
fn put_line(area: &mut [u16], named: &Named, entry: &[u16]) -> Result<(u32, [u16; 4]), Refusal> {
    let shape = named.root.shape(named.set);
    if entry.len() != shape.entry {
        return Err(BAD_LENGTH);
    }
    let taken = detail::take(area, &shape)?;
    let mut work = Work::kept(area);
    let put = work.put_line(&named.root, named.set, &shape, &taken, entry);
    if put.is_err() {
        work.undo();
    }
    Ok((taken.record, put?))
}

#[inline(never)]
pub fn update(
    root: &[u16],
    area: &mut [u16],
    cursors: &mut [u32],
    set: u16,
    entry: &[u16],
    status: &mut [u16],
) -> u16 {
    let Ok(cursors) = <&mut [u32; 64]>::try_from(cursors) else { return 1 };
    let Ok(status) = <&mut Status>::try_from(status) else { return 1 };
    *status = answer(update_entry(root, area, cursors, set, entry));
    0
}

fn update_entry(
    root: &[u16],
    area: &mut [u16],
    cursors: &[u32; 64],
    set: u16,
    entry: &[u16],
) -> Result<Status, Refusal> {
    let named = name(root, area, set)?;
    let cursor = named.cursor(cursors)?;
    let stated = named.root.stated(named.set);
    if stated.kind() == Kind::Automatic {
        return Err(IS_AUTOMATIC);
    }
    let shape = named.root.shape(named.set);
    if entry.len() != shape.entry {
        return Err(BAD_LENGTH);
    }
    let record = live_record(area, &shape, cursor.record)?;
    let old = area::entry(area, &shape, record);
    let kept = |item: u16| {
        let field = named.root.field(named.set, item);
        field.of(old) == field.of(entry)
    };
    let on_path = |&[_, search, sort]: &[u16; 3]| kept(search) && (sort == 0 || kept(sort));
    let keyed = !named.is_master() || kept(stated.key());
    if !keyed || !stated.paths().iter().all(on_path) {
        return Err(FIXED_ITEM);
    }
    let at = shape.at(record) + shape.front;
    area[at..at + shape.entry].copy_from_slice(entry);
    Ok(success(shape.entry, 0, 0, Links::NONE))
}

#[inline(never)]
pub fn delete(
    root: &[u16],
    area: &mut [u16],
    cursors: &mut [u32],
    set: u16,
    status: &mut [u16],
) -> u16 {
    let Ok(cursors) = <&mut [u32; 64]>::try_from(cursors) else { return 1 };
    let Ok(status) = <&mut Status>::try_from(status) else { return 1 };
    *status = answer(delete_entry(root, area, cursors, set));
    0
}

fn delete_entry(
    root: &[u16],
    area: &mut [u16],
    cursors: &[u32; 64],
    set: u16,
) -> Result<Status, Refusal> {
    let named = name(root, area, set)?;
    let cursor = named.cursor(cursors)?;
    if named.root.stated(named.set).kind() == Kind::Automatic {
        return Err(IS_AUTOMATIC);
    }
    let shape = named.root.shape(named.set);
    let record = live_record(area, &shape, cursor.record)?;
    if named.is_master() {
        if master::has_lines(area, &named.root, named.set, &shape, record)? {
            return Err(HAS_LINES);
        }
        Work::unkept(area).delete_entry(&named.root.master(named.set), record)?;
        return Ok([0; 10]);
    }
    let mut work = Work::kept(area);
    let deleted = work.delete_line(&named.root, named.set, &shape, record);
    if deleted.is_err() {
        work.undo();
    }
    deleted.map(|()| [0; 10])
}
