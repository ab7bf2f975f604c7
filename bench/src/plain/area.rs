//! The area's words: map, records, links and heads, read and held against the rules of answer 18;
//! and written, with a journal of what stood there.

use super::root::{Field, Shape};
use super::{Refusal, BROKEN};

/// Count, last, first: a chain head, or the synonym words (a secondary's are 0, previous, next).
#[derive(Clone, Copy)]
pub struct Head {
    pub count: u16,
    pub last: u32,
    pub first: u32,
}

/// A line's links on one path.
#[derive(Clone, Copy)]
pub struct Links {
    pub back: u32,
    pub forward: u32,
}

impl Links {
    pub const NONE: Links = Links { back: 0, forward: 0 };
}

/// Whether this holds: 18 if not.
pub fn sound(holds: bool) -> Result<(), Refusal> {
    if holds {
        Ok(())
    } else {
        Err(BROKEN)
    }
}

fn number(high: u16, low: u16) -> u32 {
    u32::from(high) << 16 | u32::from(low)
}

fn words<const N: usize>(area: &[u16], at: usize) -> [u16; N] {
    *area[at..].first_chunk().expect("a record is inside the area")
}

pub fn live(area: &[u16], shape: &Shape, record: u32) -> bool {
    let (at, bit) = shape.map_at(record);
    area[at] & bit != 0
}

/// 18 if a link leads to an unused record; 0 leads nowhere.
pub fn follow(area: &[u16], shape: &Shape, link: u32) -> Result<(), Refusal> {
    sound(link == 0 || live(area, shape, link))
}

/// A chain head, read whole against the detail's capacity.
pub fn head(area: &[u16], at: usize, capacity: u32) -> Result<Head, Refusal> {
    let [count, last_high, last_low, first_high, first_low] = words(area, at);
    let (last, first) = (number(last_high, last_low), number(first_high, first_low));
    sound(u32::from(count) <= capacity && last <= capacity && first <= capacity)?;
    Ok(Head { count, last, first })
}

/// The five synonym words, read whole.
pub fn synonyms(area: &[u16], shape: &Shape, record: u32) -> Result<Head, Refusal> {
    let synonyms = head(area, shape.at(record), shape.capacity)?;
    sound(synonyms.last != record && synonyms.first != record)?;
    Ok(synonyms)
}

pub fn peek_links(area: &[u16], shape: &Shape, record: u32, path: usize) -> Links {
    let [back_high, back_low, high, low] = words(area, shape.links_at(record, path));
    Links { back: number(back_high, back_low), forward: number(high, low) }
}

pub fn links(area: &[u16], shape: &Shape, record: u32, path: usize) -> Result<Links, Refusal> {
    let links = peek_links(area, shape, record, path);
    sound(links.back <= shape.capacity && links.forward <= shape.capacity)?;
    Ok(links)
}

pub fn entry<'a>(area: &'a [u16], shape: &Shape, record: u32) -> &'a [u16] {
    let at = shape.at(record) + shape.front;
    &area[at..at + shape.entry]
}

/// An item of a record's entry.
pub fn value<'a>(area: &'a [u16], shape: &Shape, field: Field, record: u32) -> &'a [u16] {
    let at = shape.at(record) + shape.front + field.at;
    &area[at..at + field.length]
}

/// The first unused record going up from one, wrapping past the capacity to 1: by words of the
/// map, since a nearly full set has long runs of ones.
pub fn unused_from(area: &[u16], shape: &Shape, from: u32) -> Option<u32> {
    let up = unused_between(area, shape, from, shape.capacity);
    up.or_else(|| unused_between(area, shape, 1, from - 1))
}

fn unused_between(area: &[u16], shape: &Shape, from: u32, to: u32) -> Option<u32> {
    let (first, last) = (from - 1, to.checked_sub(1)?);
    let map = &area[shape.start + 2..shape.records];
    // Bits before `from` count as ones; what is found beyond `to` is none.
    let mut seen = !(0xFFFF >> (first % 16));
    let words = map.iter().enumerate().take(last as usize / 16 + 1);
    for (index, word) in words.skip(first as usize / 16) {
        let ones = (word | seen).leading_ones();
        if ones < 16 {
            let bit = index as u32 * 16 + ones;
            return (bit <= last).then_some(bit + 1);
        }
        seen = 0;
    }
    None
}

/// What a step overwrites, if it is to be undone.
pub trait Journal {
    fn keep(&mut self, at: usize, words: &[u16]);
}

/// For steps that read before they write: nothing to undo.
pub struct Unkept;

impl Journal for Unkept {
    fn keep(&mut self, _: usize, _: &[u16]) {}
}

/// Place and word, in the order in which they were overwritten.
pub struct Kept(Vec<(u32, u16)>);

impl Journal for Kept {
    fn keep(&mut self, at: usize, words: &[u16]) {
        self.0.extend((at as u32..).zip(words.iter().copied()));
    }
}

/// An area to be written.
pub struct Work<'a, J> {
    pub area: &'a mut [u16],
    journal: J,
}

impl<'a> Work<'a, Unkept> {
    pub fn unkept(area: &'a mut [u16]) -> Self {
        Work { area, journal: Unkept }
    }
}

impl<'a> Work<'a, Kept> {
    /// Room for what a line on four paths overwrites when it drops one automatic entry; more than
    /// that makes it grow.
    pub fn kept(area: &'a mut [u16]) -> Self {
        Work { area, journal: Kept(Vec::with_capacity(128)) }
    }

    pub fn undo(&mut self) {
        for &(at, word) in self.journal.0.iter().rev() {
            self.area[at as usize] = word;
        }
    }
}

impl<J: Journal> Work<'_, J> {
    pub fn store<const N: usize>(&mut self, at: usize, words: [u16; N]) {
        let place = self.area[at..].first_chunk_mut::<N>().expect("a record is inside the area");
        self.journal.keep(at, place);
        *place = words;
    }

    pub fn store_run(&mut self, at: usize, words: &[u16]) {
        let place = &mut self.area[at..at + words.len()];
        self.journal.keep(at, place);
        place.copy_from_slice(words);
    }

    pub fn store_zeros(&mut self, at: usize, length: usize) {
        let place = &mut self.area[at..at + length];
        self.journal.keep(at, place);
        place.fill(0);
    }

    pub fn store_link(&mut self, at: usize, link: u32) {
        self.store(at, [(link >> 16) as u16, link as u16]);
    }

    pub fn store_head(&mut self, at: usize, head: Head) {
        let Head { count, last, first } = head;
        let halves = [last, first].map(|link| [(link >> 16) as u16, link as u16]);
        self.store(at, [count, halves[0][0], halves[0][1], halves[1][0], halves[1][1]]);
    }

    /// The words from one place on, over those from another on.
    pub fn store_moved(&mut self, from: usize, to: usize, length: usize) {
        self.journal.keep(to, &self.area[to..to + length]);
        self.area.copy_within(from..from + length, to);
    }

    pub fn make_live(&mut self, shape: &Shape, record: u32) {
        let (at, bit) = shape.map_at(record);
        self.store(at, [self.area[at] | bit]);
    }

    pub fn make_unused(&mut self, shape: &Shape, record: u32) {
        let (at, bit) = shape.map_at(record);
        self.store(at, [self.area[at] & !bit]);
        self.store_zeros(shape.at(record), shape.width);
    }
}
