//! Draws calls: what a program would do with a base, and what it shouldn't.

use crate::calls::{Call, Step};
use crate::draw;
use crate::random::Random;
use crate::schema::{Place, Schema, AUTOMATIC, DETAIL};
use crate::trial::{Halt, Trial};

pub struct Caller<'c> {
    pub random: &'c mut Random,
    pub schema: &'c Schema,
    places: Vec<Place>,
    /// Keys are numbers below this.
    range: usize,
    /// So many of a hundred acts are puts.
    pub puts: usize,
}

impl<'c> Caller<'c> {
    pub fn new(random: &'c mut Random, schema: &'c Schema) -> Caller<'c> {
        let range = random.pick(&[2, 3, 4, 6, 8, 12, 20]);
        let puts = random.between(20, 70);
        Caller { random, schema, places: schema.places(), range, puts }
    }

    /// One thing that a program does: a call or a few.
    pub fn act(&mut self, trial: &mut Trial) -> Result<(), Halt> {
        if self.random.chance(self.puts) {
            return self.put(trial);
        }
        match self.random.below(20) {
            0..=6 => self.delete(trial),
            7..=11 => self.read_chain(trial),
            12 | 13 => self.update(trial),
            14..=16 => self.read(trial),
            17 | 18 => self.odd_call(trial),
            _ => self.short_buffer(trial),
        }
    }

    fn any_set(&mut self) -> u16 {
        self.random.between(1, self.schema.sets.len()) as u16
    }

    fn value(&mut self, item: u16) -> Vec<u16> {
        draw::value(self.random, self.schema.item(item), self.range)
    }

    /// A value for a master's key, rather one that the master has.
    fn key_value(&mut self, trial: &Trial, master: u16) -> Vec<u16> {
        let place = self.places[usize::from(master) - 1];
        let area = &trial.state().area;
        let key = self.schema.set(master).key;
        if area.len() < place.end || self.random.chance(30) {
            return self.value(key);
        }
        let record = self.any_record(trial, master);
        self.schema.part(master, key, place.entry(area, record)).to_vec()
    }

    fn put(&mut self, trial: &mut Trial) -> Result<(), Halt> {
        let mut set = self.any_set();
        if self.schema.set(set).kind == AUTOMATIC {
            set = self.any_set();
        }
        let mut entry = draw::entry(self.random, self.schema, set, self.range);
        for path in &self.schema.set(set).paths {
            if self.random.chance(50) {
                let value = self.key_value(trial, path.master);
                let at = self.schema.offset(set, path.search);
                entry[at..at + value.len()].copy_from_slice(&value);
            }
        }
        trial.call(Call::Put { set, entry }).map(drop)
    }

    fn get(&mut self, trial: &mut Trial, set: u16, mode: u16) -> Result<bool, Halt> {
        let record = self.any_record(trial, set);
        let value = if mode == 7 { self.key_value(trial, set) } else { Vec::new() };
        trial.call(Call::Get { set, mode, record, value })
    }

    /// A record of the set, rather a live one.
    fn any_record(&mut self, trial: &Trial, set: u16) -> u32 {
        let place = self.places[usize::from(set) - 1];
        let area = &trial.state().area;
        let capacity = usize::from(self.schema.set(set).capacity);
        let live = |record: u32| area.len() >= place.end && place.live(area, record);
        let drawn: Vec<u32> = (0..4).map(|_| self.random.between(1, capacity) as u32).collect();
        drawn.iter().copied().find(|&record| live(record)).unwrap_or(drawn[0])
    }

    fn find(&mut self, trial: &mut Trial, set: u16) -> Result<bool, Halt> {
        let paths = &self.schema.set(set).paths;
        if paths.is_empty() {
            return Ok(false);
        }
        let path = &paths[self.random.below(paths.len())];
        let value = self.key_value(trial, path.master);
        trial.call(Call::Find { set, item: path.search, value })
    }

    /// Makes some record current.
    fn go_somewhere(&mut self, trial: &mut Trial, set: u16) -> Result<bool, Halt> {
        let is_detail = self.schema.set(set).kind == DETAIL;
        match self.random.below(10) {
            0 => self.get(trial, set, 2),
            1 => self.get(trial, set, 3),
            2..=4 if is_detail => {
                self.find(trial, set)?;
                let mode = self.random.pick(&[5, 6]);
                self.get(trial, set, mode)
            }
            2..=4 => self.get(trial, set, 7),
            _ => self.get(trial, set, 4),
        }
    }

    fn delete(&mut self, trial: &mut Trial) -> Result<(), Halt> {
        let set = self.any_set();
        if self.random.chance(90) {
            self.go_somewhere(trial, set)?;
        }
        trial.call(Call::Delete { set }).map(drop)
    }

    /// Reads along a chain, and now and then deletes a line on the way.
    fn read_chain(&mut self, trial: &mut Trial) -> Result<(), Halt> {
        let details = self.schema.sets_of(DETAIL);
        let set = self.random.pick(&details);
        self.find(trial, set)?;
        let mode = self.random.pick(&[5, 6]);
        for _ in 0..self.random.between(1, 6) {
            let turned = self.random.chance(15);
            let there = self.get(trial, set, if turned { 11 - mode } else { mode })?;
            if there && self.random.chance(10) {
                trial.call(Call::Delete { set })?;
            }
            if !there && self.random.chance(80) {
                break;
            }
        }
        Ok(())
    }

    /// Reads an entry and writes it back, one item or all of it changed.
    fn update(&mut self, trial: &mut Trial) -> Result<(), Halt> {
        let set = self.any_set();
        let mut entry = draw::entry(self.random, self.schema, set, self.range);
        if self.go_somewhere(trial, set)? && self.random.chance(85) {
            let items = &self.schema.set(set).items;
            let item = items[self.random.below(items.len())];
            let at = self.schema.offset(set, item);
            let value = self.value(item);
            entry = trial.state().buffer[..entry.len()].to_vec();
            entry[at..at + value.len()].copy_from_slice(&value);
        }
        trial.call(Call::Update { set, entry }).map(drop)
    }

    /// Reads serially, directly, by key.
    fn read(&mut self, trial: &mut Trial) -> Result<(), Halt> {
        let set = self.any_set();
        let modes = if self.schema.set(set).kind == DETAIL {
            [1, 2, 2, 3, 3, 4, 5, 6]
        } else {
            [1, 2, 2, 3, 3, 4, 7, 7]
        };
        let mode = self.random.pick(&modes);
        for _ in 0..self.random.between(1, 3) {
            self.get(trial, set, mode)?;
        }
        Ok(())
    }

    /// A call with numbers at the edges and words of any length.
    pub fn odd_call(&mut self, trial: &mut Trial) -> Result<(), Halt> {
        let set = self.odd_number(self.schema.sets.len());
        let known = (1..=self.schema.set_count()).contains(&set);
        let length = if known { self.schema.entry_length(set) } else { 3 };
        let call = match self.random.below(6) {
            0 => Call::Find { set, item: self.odd_item(set), value: self.odd_words(1) },
            1 => Call::Put { set, entry: self.odd_words(length) },
            2 => Call::Update { set, entry: self.odd_words(length) },
            3 => Call::Delete { set },
            _ => {
                let mode = if self.random.chance(30) { 4 } else { self.odd_number(7) };
                let capacity = if known { self.schema.set(set).capacity } else { 5 };
                let record = self.odd_record(capacity);
                Call::Get { set, mode, record, value: self.odd_words(1) }
            }
        };
        trial.call(call).map(drop)
    }

    /// A number at or about the edges of 1..limit.
    fn odd_number(&mut self, limit: usize) -> u16 {
        let inside = self.random.between(1, limit);
        let edges = [0, 1, limit, limit + 1, inside, inside, inside, 16, 17, 32767, 32768, 65535];
        self.random.pick(&edges) as u16
    }

    fn odd_item(&mut self, set: u16) -> u16 {
        let known = (1..=self.schema.set_count()).contains(&set);
        if known && self.random.chance(60) {
            return self.random.pick(&self.schema.set(set).items);
        }
        self.odd_number(self.schema.items.len())
    }

    fn odd_record(&mut self, capacity: u16) -> u32 {
        let capacity = u32::from(capacity);
        let any = self.random.next() as u32;
        let above = [0xFFFF, 0x1_0000, 0x1_0001, 0x8000_0001, u32::MAX, any];
        let above = self.random.pick(&above);
        self.random.pick(&[0, 0, 1, capacity, capacity, capacity + 1, capacity + 1, above])
    }

    /// Words of the length that is right, or about it, or any.
    fn odd_words(&mut self, right: usize) -> Vec<u16> {
        let any = self.random.below(40);
        let lengths = [right, right, right + 1, right.saturating_sub(1), 0, 2 * right, any, 513];
        let length = self.random.pick(&lengths);
        (0..length).map(|_| self.random.below(self.range) as u16).collect()
    }

    /// A get or two with a buffer that is short, just long enough or much too long.
    fn short_buffer(&mut self, trial: &mut Trial) -> Result<(), Halt> {
        let set = self.any_set();
        let length = self.schema.entry_length(set);
        let length = self.random.pick(&[0, length - 1, length - 1, length, length + 1, 2 * length]);
        trial.step(self.buffer(length))?;
        for _ in 0..self.random.between(1, 2) {
            self.go_somewhere(trial, set)?;
        }
        trial.step(self.roomy_buffer()).map(drop)
    }

    fn buffer(&mut self, length: usize) -> Step {
        Step::Buffer((0..length).map(|_| self.random.word()).collect())
    }

    /// A buffer with room for every entry and some words more.
    pub fn roomy_buffer(&mut self) -> Step {
        let lengths = (1..=self.schema.set_count()).map(|set| self.schema.entry_length(set));
        let longest = lengths.max().unwrap_or(0);
        self.buffer(longest + 2)
    }
}
