//! Damaged areas and odd cursors, aimed at what calls read.

use crate::calls::Step;
use crate::draw;
use crate::random::Random;
use crate::schema::{Place, Schema, DETAIL};

/// A count or a link of a record, and the capacity it is held against.
struct Field {
    at: usize,
    is_count: bool,
    capacity: u16,
}

/// The counts and links in each record of a set.
fn fields(schema: &Schema, set: u16) -> Vec<Field> {
    let own = schema.set(set).capacity;
    let mut fields = Vec::new();
    let mut three = |at: usize, capacity: u16| {
        fields.push(Field { at, is_count: true, capacity });
        fields.push(Field { at: at + 1, is_count: false, capacity });
        fields.push(Field { at: at + 3, is_count: false, capacity });
    };
    if schema.set(set).kind != DETAIL {
        three(0, own);
        for (head, (detail, _)) in schema.leading(set).into_iter().enumerate() {
            three(5 + 5 * head, schema.set(detail).capacity);
        }
    }
    let links = (0..schema.set(set).paths.len()).flat_map(|path| [4 * path, 4 * path + 2]);
    fields.extend(links.map(|at| Field { at, is_count: false, capacity: own }));
    fields
}

/// A record that is damaged.
struct Spot<'s> {
    schema: &'s Schema,
    set: u16,
    place: Place,
    record: u32,
}

impl Spot<'_> {
    /// A record of any set, rather a live one.
    fn draw<'s>(random: &mut Random, schema: &'s Schema, area: &[u16]) -> Spot<'s> {
        let set = random.between(1, schema.sets.len()) as u16;
        let place = schema.places()[usize::from(set) - 1];
        let records: Vec<u32> = (1..=u32::from(schema.set(set).capacity)).collect();
        let live: Vec<u32> = records.iter().copied().filter(|&r| place.live(area, r)).collect();
        let any = live.is_empty() || random.chance(15);
        let record = random.pick(if any { &records } else { &live });
        Spot { schema, set, place, record }
    }

    fn capacity(&self) -> u16 {
        self.schema.set(self.set).capacity
    }

    /// The record's bit in the map; now and then one beyond the capacity, which is never read.
    fn damaged_map(&self, random: &mut Random, area: &[u16]) -> Step {
        let beyond = u32::from(self.capacity().next_multiple_of(16));
        let (at, bit) = self.place.map_bit(if random.chance(15) { beyond } else { self.record });
        Step::Poke(at, area[at] ^ bit)
    }

    /// A number of a freed record, or what a call takes for one.
    fn damaged_number(&self, random: &mut Random, at: usize) -> Step {
        Step::Poke(at, odd_link(random, self.capacity(), self.record) as u16)
    }

    /// One word of the entry changed, as for a key that isn't where it should be.
    fn damaged_entry(&self, random: &mut Random) -> Step {
        let entry = draw::entry(random, self.schema, self.set, 8);
        let word = random.below(entry.len());
        Step::Poke(self.place.record(self.record) + self.place.lead + word, entry[word])
    }

    /// One of these counts and links.
    fn damaged_field(&self, random: &mut Random, fields: &[Field]) -> Vec<Step> {
        if fields.is_empty() {
            return Vec::new();
        }
        let field = &fields[random.below(fields.len())];
        poke_field(random, field, self.place.record(self.record), self.record)
    }
}

/// Damages an area at one spot.
pub fn damage(random: &mut Random, schema: &Schema, area: &[u16]) -> Vec<Step> {
    let spot = Spot::draw(random, schema, area);
    match random.below(12) {
        0 | 1 => vec![spot.damaged_map(random, area)],
        // The mark or the first freed record; a master's two words are never read.
        2 if random.chance(50) => {
            vec![Step::Poke(spot.place.start, odd_count(random, spot.capacity()))]
        }
        2 => vec![spot.damaged_number(random, spot.place.start + 1)],
        // A freed record's link, if the record is unused.
        3 => vec![spot.damaged_number(random, spot.place.record(spot.record))],
        4 => vec![spot.damaged_entry(random)],
        _ => spot.damaged_field(random, &fields(schema, spot.set)),
    }
}

/// Damages a head or a line's links, so that masters are still found.
pub fn damage_chain(random: &mut Random, schema: &Schema, area: &[u16]) -> Vec<Step> {
    let spot = Spot::draw(random, schema, area);
    let is_detail = schema.set(spot.set).kind == DETAIL;
    let mut fields = fields(schema, spot.set);
    fields.retain(|field| is_detail || field.at >= 5);
    spot.damaged_field(random, &fields)
}

fn poke_field(random: &mut Random, field: &Field, record_at: usize, record: u32) -> Vec<Step> {
    let at = record_at + field.at;
    if field.is_count {
        return vec![Step::Poke(at, odd_count(random, field.capacity))];
    }
    let link = odd_link(random, field.capacity, record);
    vec![Step::Poke(at, (link >> 16) as u16), Step::Poke(at + 1, link as u16)]
}

fn odd_count(random: &mut Random, capacity: u16) -> u16 {
    let inside = random.between(0, usize::from(capacity)) as u16;
    random.pick(&[0, 0, 1, 1, capacity, capacity + 1, 65535, inside, inside, inside])
}

/// A link, most often to some record of the set.
fn odd_link(random: &mut Random, capacity: u16, own: u32) -> u32 {
    let capacity = u32::from(capacity);
    let inside = random.between(1, capacity as usize) as u32;
    match random.below(24) {
        0 => capacity + 1,
        1 => own,
        2 => 0x1_0000 + inside,
        3 => 65535,
        4..=7 => 0,
        _ => inside,
    }
}

/// An area in which every count and link is random but most are within their bounds.
pub fn plausible_area(random: &mut Random, schema: &Schema) -> Vec<u16> {
    let mut area = vec![0; schema.area_length()];
    let live = random.pick(&[40, 70, 90, 100]);
    for (set, place) in (1..).zip(schema.places()) {
        let capacity = schema.set(set).capacity;
        let mark = random.between(0, usize::from(capacity)) as u16;
        area[place.start] = if random.chance(5) { odd_count(random, capacity) } else { mark };
        area[place.start + 1] = odd_link(random, capacity, 0) as u16;
        for record in 1..=u32::from(capacity) {
            if random.chance(live) {
                let (at, bit) = place.map_bit(record);
                area[at] |= bit;
            }
            fill_record(random, schema, set, &place, record, &mut area);
        }
    }
    area
}

/// A record of random counts and links, within their bounds but for one in a hundred.
fn fill_record(
    random: &mut Random,
    schema: &Schema,
    set: u16,
    place: &Place,
    record: u32,
    area: &mut [u16],
) {
    let at = place.record(record);
    for field in fields(schema, set) {
        let inside = random.between(0, usize::from(field.capacity)) as u16;
        if random.chance(99) {
            let low_word = if field.is_count { field.at } else { field.at + 1 };
            let none = random.chance(30);
            area[at + low_word] = if none { 0 } else { inside };
        } else {
            for step in poke_field(random, &field, at, record) {
                if let Step::Poke(at, word) = step {
                    area[at] = word;
                }
            }
        }
    }
    let entry = draw::entry(random, schema, set, 6);
    area[at + place.lead..at + place.record_length].copy_from_slice(&entry);
}

/// A cursor of numbers at or about their edges.
pub fn odd_cursor(random: &mut Random, schema: &Schema) -> Step {
    if random.chance(5) {
        // Any set's, also one that the root doesn't have.
        return Step::Cursor(random.between(1, 16), [0; 4].map(|_| random.next() as u32));
    }
    let set = random.between(1, schema.sets.len()) as u16;
    let (capacity, paths) = (schema.set(set).capacity, schema.set(set).paths.len());
    let mut record = random.between(0, usize::from(capacity)) as u32;
    let mut path = random.between(0, paths) as u32;
    match random.below(20) {
        0 => record = u32::from(capacity) + 1,
        1 => record = random.next() as u32,
        2 => path = paths as u32 + 1,
        3 => path = random.next() as u32,
        _ => {}
    }
    let [back, forward] = [0; 2].map(|_| odd_link(random, capacity, record));
    Step::Cursor(usize::from(set), [record, path, back, forward])
}
