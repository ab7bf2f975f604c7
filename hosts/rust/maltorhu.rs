//! Maltorhu from Rust: a safe wrapper around `libmaltorhu.a`, without
//! dependencies.
//!
//! A [`Base`] owns the description and the area. A [`Session`] borrows it,
//! holds a cursor for each set and makes the calls. Each call gives what it
//! answers, or the [`Condition`] that refused it; a refused call stores nothing
//! and leaves the cursors as they were.
//!
//! ```text
//! let mut base = Base::make(&Root::new(&items, &sets))?;
//! let mut session = base.session();
//! session.find(PRICES, ACCOUNT, &[1001])?;
//! for line in session.walk(PRICES, Way::Back) {
//!     println!("{:?}", line?.words);
//! }
//! ```
//!
//! Items and sets are numbered from 1, in the order of the description. Words
//! of the engine are `u16`; [`pack`] and [`unpack`] are for X items,
//! [`two_words`] and [`number`] for K items of two words.
//!
//! `rustc --crate-type rlib -L native=DIRECTORY-OF-THE-ARCHIVE maltorhu.rs`

use std::error::Error;
use std::fmt;

const SETS: usize = 16;
const SET_ITEMS: usize = 16;
const SET_PATHS: usize = 4;
const STATUS: usize = 10;

/// Words of the longest entry there can be: 16 items of 32 words.
const ENTRY_MOST: usize = 512;

/// The C interface: a slice is a pointer and its count of elements.
mod raw {
    #[link(name = "maltorhu", kind = "static")]
    extern "C" {
        pub fn dbmake(
            root: *const u16,
            root_words: usize,
            area: *mut u16,
            area_words: usize,
            status: *mut u16,
            status_words: usize,
        ) -> u16;
        pub fn dbfind(
            root: *const u16,
            root_words: usize,
            area: *const u16,
            area_words: usize,
            cursors: *mut u32,
            cursor_words: usize,
            set: u16,
            item: u16,
            value: *const u16,
            value_words: usize,
            status: *mut u16,
            status_words: usize,
        ) -> u16;
        pub fn dbget(
            root: *const u16,
            root_words: usize,
            area: *const u16,
            area_words: usize,
            cursors: *mut u32,
            cursor_words: usize,
            set: u16,
            mode: u16,
            record: u32,
            value: *const u16,
            value_words: usize,
            buffer: *mut u16,
            buffer_words: usize,
            status: *mut u16,
            status_words: usize,
        ) -> u16;
        pub fn dbput(
            root: *const u16,
            root_words: usize,
            area: *mut u16,
            area_words: usize,
            cursors: *mut u32,
            cursor_words: usize,
            set: u16,
            entry: *const u16,
            entry_words: usize,
            status: *mut u16,
            status_words: usize,
            passed: *mut u16,
            passed_words: usize,
        ) -> u16;
        pub fn dbupdate(
            root: *const u16,
            root_words: usize,
            area: *mut u16,
            area_words: usize,
            cursors: *mut u32,
            cursor_words: usize,
            set: u16,
            entry: *const u16,
            entry_words: usize,
            status: *mut u16,
            status_words: usize,
        ) -> u16;
        pub fn dbdelete(
            root: *const u16,
            root_words: usize,
            area: *mut u16,
            area_words: usize,
            cursors: *mut u32,
            cursor_words: usize,
            set: u16,
            status: *mut u16,
            status_words: usize,
        ) -> u16;
        pub fn dbpack(
            text: *const u8,
            text_bytes: usize,
            words: *mut u16,
            word_count: usize,
        ) -> u16;
        pub fn dbunpack(
            words: *const u16,
            word_count: usize,
            text: *mut u8,
            text_bytes: usize,
        ) -> u16;
    }
}

/// Why a call was refused.
#[derive(Clone, Copy, Debug, PartialEq, Eq)]
pub enum Condition {
    /// -91
    BadRoot,
    /// -92
    BadArea,
    /// -21
    NoSet,
    /// -93
    BadCursor,
    /// -24
    IsAutomatic,
    /// -31
    BadMode,
    /// -52
    NoSearchItem,
    /// -95
    BadLength,
    /// -94
    NoPath,
    /// 50
    ShortBuffer,
    /// 10
    BeginOfSet,
    /// 11
    EndOfSet,
    /// 12
    RecordZero,
    /// 13
    RecordAbove,
    /// 14
    BeginOfChain,
    /// 15
    EndOfChain,
    /// 17
    NoRecord,
    /// 41
    FixedItem,
    /// 43
    KeyPresent,
    /// 16
    SetFull,
    /// 44
    HasLines,
    /// 101 to 104: the manual master of this path has no such entry
    NoMaster(u8),
    /// 301 to 304: the automatic master of this path is full
    MasterFull(u8),
    /// 18
    Damaged,
    /// A number that this wrapper does not know
    Other(i16),
}

use Condition::*;

/// The conditions without a path.
const PLAIN: [Condition; 22] = [
    BadRoot,
    BadArea,
    NoSet,
    BadCursor,
    IsAutomatic,
    BadMode,
    NoSearchItem,
    BadLength,
    NoPath,
    ShortBuffer,
    BeginOfSet,
    EndOfSet,
    RecordZero,
    RecordAbove,
    BeginOfChain,
    EndOfChain,
    NoRecord,
    FixedItem,
    KeyPresent,
    SetFull,
    HasLines,
    Damaged,
];

impl Condition {
    /// The condition with this number; 0 is none.
    pub fn from_number(number: i16) -> Option<Condition> {
        let paths = (1..=4).flat_map(|path| [NoMaster(path), MasterFull(path)]);
        let known = PLAIN
            .into_iter()
            .chain(paths)
            .find(|c| c.number() == number);
        (number != 0).then(|| known.unwrap_or(Other(number)))
    }

    /// The condition word.
    pub fn number(self) -> i16 {
        self.number_and_words().0
    }

    /// The beginning or end of a set or chain: nothing more to read this way.
    pub fn is_end(self) -> bool {
        matches!(self, BeginOfSet | EndOfSet | BeginOfChain | EndOfChain)
    }

    fn number_and_words(self) -> (i16, &'static str) {
        match self {
            BadRoot => (-91, "the description breaks a rule"),
            BadArea => (-92, "the area has not its description's length"),
            NoSet => (-21, "no such set, or find on a master"),
            BadCursor => (-93, "the cursor has no such path or record"),
            IsAutomatic => (-24, "an automatic master is not changed by hand"),
            BadMode => (-31, "no such mode for this kind of set"),
            NoSearchItem => (-52, "not a search item of the set"),
            BadLength => (-95, "an entry or value of the wrong length"),
            NoPath => (-94, "reading along a chain without a find"),
            ShortBuffer => (50, "the entry does not fit the buffer"),
            BeginOfSet => (10, "beginning of the set"),
            EndOfSet => (11, "end of the set"),
            RecordZero => (12, "there is no record 0"),
            RecordAbove => (13, "the record is above the capacity"),
            BeginOfChain => (14, "beginning of the chain"),
            EndOfChain => (15, "end of the chain"),
            NoRecord => (17, "no such entry, or the record is not live"),
            FixedItem => (41, "a key, search or sort item cannot be updated"),
            KeyPresent => (43, "the key is present already"),
            SetFull => (16, "the set is full"),
            HasLines => (44, "the entry still has lines"),
            NoMaster(path) => (100 + i16::from(path), "no manual entry for this path"),
            MasterFull(path) => (300 + i16::from(path), "automatic master of this path full"),
            Damaged => (18, "damaged area, or a cursor from before another's delete"),
            Other(number) => (number, "a condition not known here"),
        }
    }
}

impl fmt::Display for Condition {
    fn fmt(&self, f: &mut fmt::Formatter) -> fmt::Result {
        let (number, words) = self.number_and_words();
        write!(f, "condition {number}: {words}")
    }
}

impl Error for Condition {}

/// What a call gives: its answer, or the condition that refused it.
pub type Answer<T> = Result<T, Condition>;

/// An item of the description, with its length in words.
#[derive(Clone, Copy, Debug)]
pub enum Item {
    /// A signed number, two's complement, of 1 or 2 words.
    I(u16),
    /// An unsigned number of 1 or 2 words.
    K(u16),
    /// Characters, two to a word, 1 to 32 words.
    X(u16),
}

impl Item {
    fn type_and_words(self) -> [u16; 2] {
        match self {
            Item::I(words) => [1, words],
            Item::K(words) => [2, words],
            Item::X(words) => [3, words],
        }
    }
}

/// A path of a detail set.
#[derive(Clone, Copy, Debug)]
pub struct Path {
    pub master: u16,
    pub search: u16,
    pub sort: Option<u16>,
}

/// A set of the description.
#[derive(Clone, Copy, Debug)]
pub enum Set<'a> {
    Manual {
        capacity: u16,
        key: u16,
        items: &'a [u16],
    },
    Automatic {
        capacity: u16,
        key: u16,
    },
    Detail {
        capacity: u16,
        items: &'a [u16],
        paths: &'a [Path],
    },
}

impl Set<'_> {
    fn kind(&self) -> u16 {
        match self {
            Set::Manual { .. } => 1,
            Set::Automatic { .. } => 2,
            Set::Detail { .. } => 3,
        }
    }

    fn capacity(&self) -> u16 {
        match *self {
            Set::Manual { capacity, .. }
            | Set::Automatic { capacity, .. }
            | Set::Detail { capacity, .. } => capacity,
        }
    }

    fn key(&self) -> u16 {
        match *self {
            Set::Manual { key, .. } | Set::Automatic { key, .. } => key,
            Set::Detail { .. } => 0,
        }
    }

    fn items(&self) -> &[u16] {
        match self {
            Set::Manual { items, .. } | Set::Detail { items, .. } => items,
            Set::Automatic { key, .. } => std::slice::from_ref(key),
        }
    }

    fn paths(&self) -> &[Path] {
        match self {
            Set::Detail { paths, .. } => paths,
            Set::Manual { .. } | Set::Automatic { .. } => &[],
        }
    }

    fn words(&self) -> Vec<u16> {
        let mut words = vec![self.kind(), self.capacity(), count(self.items())];
        words.extend([self.key(), count(self.paths())]);
        words.extend(filled(self.items().iter().copied(), SET_ITEMS));
        let paths = self.paths().iter();
        let triples = paths.flat_map(|p| [p.master, p.search, p.sort.unwrap_or(0)]);
        words.extend(filled(triples, 3 * SET_PATHS));
        words
    }
}

/// A count too large for a word becomes the largest: the engine refuses both.
fn count<T>(list: &[T]) -> u16 {
    u16::try_from(list.len()).unwrap_or(u16::MAX)
}

/// The list, with zeros in the unused places.
fn filled(list: impl Iterator<Item = u16>, places: usize) -> Vec<u16> {
    let mut words: Vec<u16> = list.collect();
    words.resize(words.len().max(places), 0);
    words
}

/// The description of a base. It is judged when a base is made with it.
#[derive(Clone, Debug)]
pub struct Root {
    words: Vec<u16>,
    area_words: usize,
}

impl Root {
    pub fn new(items: &[Item], sets: &[Set]) -> Root {
        let mut words = vec![count(items), count(sets)];
        words.extend(items.iter().flat_map(|item| item.type_and_words()));
        words.extend(sets.iter().flat_map(Set::words));
        let area_words = (1..=u16::MAX)
            .zip(sets)
            .map(|(n, set)| set_words(items, sets, n, set))
            .sum();
        Root { words, area_words }
    }

    pub fn words(&self) -> &[u16] {
        &self.words
    }

    /// The length of the area that goes with it.
    pub fn area_words(&self) -> usize {
        self.area_words
    }
}

/// A set's part of the area: two words, one bit to a record, the records.
fn set_words(items: &[Item], sets: &[Set], number: u16, set: &Set) -> usize {
    let capacity = usize::from(set.capacity());
    let record = link_words(sets, number, set) + entry_words(items, set);
    2 + capacity.div_ceil(16) + capacity * record
}

/// What stands before the entry: a line's links; synonym words and heads.
fn link_words(sets: &[Set], number: u16, set: &Set) -> usize {
    let leads_here = |path: &&Path| path.master == number;
    match set {
        Set::Detail { paths, .. } => 4 * paths.len(),
        _ => 5 + 5 * sets.iter().flat_map(Set::paths).filter(leads_here).count(),
    }
}

fn entry_words(items: &[Item], set: &Set) -> usize {
    let item = |number: &u16| items.get(usize::from(*number).wrapping_sub(1));
    let items = set.items().iter().filter_map(item);
    items
        .map(|item| usize::from(item.type_and_words()[1]))
        .sum()
}

/// A base: its description and its area.
#[derive(Clone, Debug)]
pub struct Base {
    root: Vec<u16>,
    area: Vec<u16>,
}

impl Base {
    /// An empty base.
    pub fn make(root: &Root) -> Answer<Base> {
        let mut base = Base {
            root: root.words.clone(),
            area: vec![0; root.area_words],
        };
        let mut status = [0; STATUS];
        // SAFETY: each pointer goes with the length of its own slice.
        let returned = unsafe {
            raw::dbmake(
                base.root.as_ptr(),
                base.root.len(),
                base.area.as_mut_ptr(),
                base.area.len(),
                status.as_mut_ptr(),
                status.len(),
            )
        };
        answer(returned, status).map(|_| base)
    }

    /// A base from words that were kept, as in a file. Each call judges them.
    pub fn from_words(root: Vec<u16>, area: Vec<u16>) -> Base {
        Base { root, area }
    }

    pub fn root(&self) -> &[u16] {
        &self.root
    }

    pub fn area(&self) -> &[u16] {
        &self.area
    }

    /// A session with fresh cursors.
    pub fn session(&mut self) -> Session<'_> {
        Session {
            base: self,
            cursors: [[0; 4]; SETS],
        }
    }
}

/// Which entry to get.
#[derive(Clone, Copy, Debug)]
pub enum Read<'v> {
    /// The current record again.
    Current,
    /// The lowest live record above it.
    Next,
    /// The highest live record below it.
    Previous,
    /// The record with this number.
    Record(u32),
    /// The next line of the chain.
    Forward,
    /// The line before in the chain.
    Back,
    /// The master entry with this key.
    Key(&'v [u16]),
}

impl<'v> Read<'v> {
    fn mode_record_value(self) -> (u16, u32, &'v [u16]) {
        match self {
            Read::Current => (1, 0, &[]),
            Read::Next => (2, 0, &[]),
            Read::Previous => (3, 0, &[]),
            Read::Record(record) => (4, record, &[]),
            Read::Forward => (5, 0, &[]),
            Read::Back => (6, 0, &[]),
            Read::Key(key) => (7, 0, key),
        }
    }
}

/// The ways to read on, entry by entry, until an end.
#[derive(Clone, Copy, Debug)]
pub enum Way {
    /// Through the set, by ascending record numbers.
    Next,
    /// Through the set, by descending record numbers.
    Previous,
    /// Along the chain that was found, from its first line.
    Forward,
    /// Along the chain that was found, from its last line.
    Back,
}

impl From<Way> for Read<'static> {
    fn from(way: Way) -> Read<'static> {
        match way {
            Way::Next => Read::Next,
            Way::Previous => Read::Previous,
            Way::Forward => Read::Forward,
            Way::Back => Read::Back,
        }
    }
}

/// A chain that was found.
#[derive(Clone, Copy, Debug, PartialEq, Eq)]
pub struct Chain {
    pub count: u32,
    pub last: u32,
    pub first: u32,
}

/// An entry that was read, with its record and the lines on both sides of it.
#[derive(Clone, Debug, PartialEq, Eq)]
pub struct Entry {
    pub words: Vec<u16>,
    pub record: u32,
    /// Entries with this primary address; 0 for a secondary and for a line.
    pub synonyms: u32,
    pub back: u32,
    pub forward: u32,
}

/// Where an entry was put, and the lines passed on each sorted path.
#[derive(Clone, Copy, Debug, PartialEq, Eq)]
pub struct Stored {
    pub record: u32,
    pub passed: [u16; SET_PATHS],
}

/// The ten status words of a call that was accepted.
struct Status([u16; STATUS]);

impl Status {
    fn entry_words(&self) -> usize {
        usize::from(self.0[1])
    }

    fn record(&self) -> u32 {
        number([self.0[2], self.0[3]])
    }

    fn count(&self) -> u32 {
        number([self.0[4], self.0[5]])
    }

    fn back(&self) -> u32 {
        number([self.0[6], self.0[7]])
    }

    fn forward(&self) -> u32 {
        number([self.0[8], self.0[9]])
    }
}

/// A call returns 1 only for tables of a wrong length, and ours are fixed.
fn answer(returned: u16, status: [u16; STATUS]) -> Answer<Status> {
    assert_eq!(
        returned, 0,
        "libmaltorhu.a wants other lengths than this wrapper has"
    );
    match Condition::from_number(status[0] as i16) {
        None => Ok(Status(status)),
        Some(condition) => Err(condition),
    }
}

/// One caller's calls on a base, with a cursor for each set.
pub struct Session<'b> {
    base: &'b mut Base,
    cursors: [[u32; 4]; SETS],
}

impl<'b> Session<'b> {
    /// Finds the chain of a detail set whose search item has this value. Then
    /// `Forward` reads its first line, `Back` its last.
    pub fn find(&mut self, set: u16, item: u16, value: &[u16]) -> Answer<Chain> {
        let mut status = [0; STATUS];
        let cursors = self.cursors.as_flattened_mut();
        // SAFETY: each pointer goes with the length of its own slice.
        let returned = unsafe {
            raw::dbfind(
                self.base.root.as_ptr(),
                self.base.root.len(),
                self.base.area.as_ptr(),
                self.base.area.len(),
                cursors.as_mut_ptr(),
                cursors.len(),
                set,
                item,
                value.as_ptr(),
                value.len(),
                status.as_mut_ptr(),
                status.len(),
            )
        };
        let found = answer(returned, status)?;
        Ok(Chain {
            count: found.count(),
            last: found.back(),
            first: found.forward(),
        })
    }

    /// Reads an entry and makes it current.
    pub fn get(&mut self, set: u16, read: Read) -> Answer<Entry> {
        let (mode, record, value) = read.mode_record_value();
        let mut buffer = [0; ENTRY_MOST];
        let mut status = [0; STATUS];
        let cursors = self.cursors.as_flattened_mut();
        // SAFETY: each pointer goes with the length of its own slice.
        let returned = unsafe {
            raw::dbget(
                self.base.root.as_ptr(),
                self.base.root.len(),
                self.base.area.as_ptr(),
                self.base.area.len(),
                cursors.as_mut_ptr(),
                cursors.len(),
                set,
                mode,
                record,
                value.as_ptr(),
                value.len(),
                buffer.as_mut_ptr(),
                buffer.len(),
                status.as_mut_ptr(),
                status.len(),
            )
        };
        let got = answer(returned, status)?;
        Ok(Entry {
            words: buffer[..got.entry_words()].to_vec(),
            record: got.record(),
            synonyms: got.count(),
            back: got.back(),
            forward: got.forward(),
        })
    }

    /// Puts an entry and makes it current.
    pub fn put(&mut self, set: u16, entry: &[u16]) -> Answer<Stored> {
        let mut status = [0; STATUS];
        let mut passed = [0; SET_PATHS];
        let cursors = self.cursors.as_flattened_mut();
        // SAFETY: each pointer goes with the length of its own slice.
        let returned = unsafe {
            raw::dbput(
                self.base.root.as_ptr(),
                self.base.root.len(),
                self.base.area.as_mut_ptr(),
                self.base.area.len(),
                cursors.as_mut_ptr(),
                cursors.len(),
                set,
                entry.as_ptr(),
                entry.len(),
                status.as_mut_ptr(),
                status.len(),
                passed.as_mut_ptr(),
                passed.len(),
            )
        };
        let put = answer(returned, status)?;
        Ok(Stored {
            record: put.record(),
            passed,
        })
    }

    /// Replaces the current entry; key, search and sort items stay.
    pub fn update(&mut self, set: u16, entry: &[u16]) -> Answer<()> {
        let mut status = [0; STATUS];
        let cursors = self.cursors.as_flattened_mut();
        // SAFETY: each pointer goes with the length of its own slice.
        let returned = unsafe {
            raw::dbupdate(
                self.base.root.as_ptr(),
                self.base.root.len(),
                self.base.area.as_mut_ptr(),
                self.base.area.len(),
                cursors.as_mut_ptr(),
                cursors.len(),
                set,
                entry.as_ptr(),
                entry.len(),
                status.as_mut_ptr(),
                status.len(),
            )
        };
        answer(returned, status).map(|_| ())
    }

    /// Deletes the current entry. Reading on in the chain still works.
    pub fn delete(&mut self, set: u16) -> Answer<()> {
        let mut status = [0; STATUS];
        let cursors = self.cursors.as_flattened_mut();
        // SAFETY: each pointer goes with the length of its own slice.
        let returned = unsafe {
            raw::dbdelete(
                self.base.root.as_ptr(),
                self.base.root.len(),
                self.base.area.as_mut_ptr(),
                self.base.area.len(),
                cursors.as_mut_ptr(),
                cursors.len(),
                set,
                status.as_mut_ptr(),
                status.len(),
            )
        };
        answer(returned, status).map(|_| ())
    }

    /// Reads on, or `None` at the end. Unlike [`Session::walk`] it leaves the
    /// session free for an update or delete between two entries.
    pub fn next(&mut self, set: u16, way: Way) -> Answer<Option<Entry>> {
        match self.get(set, way.into()) {
            Ok(entry) => Ok(Some(entry)),
            Err(condition) if condition.is_end() => Ok(None),
            Err(condition) => Err(condition),
        }
    }

    /// Every entry this way, until the end or a refusal.
    pub fn walk(&mut self, set: u16, way: Way) -> Walk<'_, 'b> {
        Walk {
            session: self,
            set,
            way,
            over: false,
        }
    }

    /// Back to the set's beginning: `Next` then reads its first entry. The path
    /// of the last find stays.
    pub fn rewind(&mut self, set: u16) -> Answer<()> {
        let place = usize::from(set).wrapping_sub(1);
        let [record, _, back, forward] = self.cursors.get_mut(place).ok_or(NoSet)?;
        (*record, *back, *forward) = (0, 0, 0);
        Ok(())
    }
}

/// The entries of a walk. It is over after the first refusal.
pub struct Walk<'s, 'b> {
    session: &'s mut Session<'b>,
    set: u16,
    way: Way,
    over: bool,
}

impl Iterator for Walk<'_, '_> {
    type Item = Answer<Entry>;

    fn next(&mut self) -> Option<Answer<Entry>> {
        if self.over {
            return None;
        }
        let next = self.session.next(self.set, self.way).transpose();
        self.over = !matches!(next, Some(Ok(_)));
        next
    }
}

/// A two-word number has its high word first.
pub fn number(words: [u16; 2]) -> u32 {
    u32::from(words[0]) << 16 | u32::from(words[1])
}

/// The words of a two-word number.
pub fn two_words(number: u32) -> [u16; 2] {
    [(number >> 16) as u16, (number & 0xFFFF) as u16]
}

/// A text that has more than two characters for each word of its item.
#[derive(Clone, Copy, Debug, PartialEq, Eq)]
pub struct TooLong;

impl fmt::Display for TooLong {
    fn fmt(&self, f: &mut fmt::Formatter) -> fmt::Result {
        write!(f, "the text is too long for its item")
    }
}

impl Error for TooLong {}

/// Characters into the words of an X item, filled up with blanks.
pub fn pack(text: impl AsRef<[u8]>, words: usize) -> Result<Vec<u16>, TooLong> {
    let text = text.as_ref();
    let mut packed = vec![0; words];
    // SAFETY: each pointer goes with the length of its own slice.
    let returned =
        unsafe { raw::dbpack(text.as_ptr(), text.len(), packed.as_mut_ptr(), packed.len()) };
    if returned == 0 {
        Ok(packed)
    } else {
        Err(TooLong)
    }
}

/// The words of an X item as characters, with the blanks at their end.
pub fn unpack(words: &[u16]) -> Vec<u8> {
    let mut text = vec![0; 2 * words.len()];
    // SAFETY: each pointer goes with the length of its own slice.
    let returned =
        unsafe { raw::dbunpack(words.as_ptr(), words.len(), text.as_mut_ptr(), text.len()) };
    assert_eq!(returned, 0, "two characters for each word are room enough");
    text
}
