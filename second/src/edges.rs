//! Roots near the edges of the rules.

use crate::random::Random;
use crate::schema::{Item, Path, Schema, Set, DETAIL, MANUAL, TYPE_K, TYPE_X};

/// Numbers at which a rule of the root begins or ends.
const EDGES: [u16; 16] = [0, 1, 2, 3, 4, 5, 8, 9, 16, 17, 32, 33, 64, 65, 4095, 4096];

/// A good root changed a little: it may still be good, or break a rule.
pub fn edge_root(random: &mut Random, good: &Schema) -> Vec<u16> {
    let mut schema = good.clone();
    match random.below(32) {
        0 => return shorter(random, good.words()),
        1 => return [good.words(), vec![random.pick(&[0, 1])]].concat(),
        2 => return (0..random.below(80)).map(|_| random.below(5) as u16).collect(),
        3 => schema = paths_to_one_master(random.pick(&[8, 9])),
        4 => schema.items.resize(random.pick(&[64, 65]), Item { kind: TYPE_X, length: 32 }),
        5 => schema.sets.resize(random.pick(&[16, 17]), Set::new(DETAIL, 1, 0, &[1], &[])),
        6 => schema.items.clear(),
        7 => schema.sets.clear(),
        8..=11 => change_item(random, &mut schema),
        12..=17 => change_set(random, &mut schema),
        18..=23 => change_path(random, &mut schema),
        _ => return one_word_changed(random, good.words()),
    }
    schema.words()
}

fn shorter(random: &mut Random, mut words: Vec<u16>) -> Vec<u16> {
    let any = random.below(words.len());
    words.truncate(random.pick(&[0, 1, 2, any, words.len() - 1, words.len() - 33]));
    words
}

/// One master and three details, with so many paths to it.
fn paths_to_one_master(count: u16) -> Schema {
    let mut sets = vec![Set::new(MANUAL, 2, 1, &[1], &[])];
    for detail in 0..3 {
        let searches: Vec<u16> = (1..=4).filter(|item| (item - 1) * 3 + detail < count).collect();
        let paths: Vec<(u16, u16, u16)> = searches.iter().map(|&item| (1, item, 0)).collect();
        sets.push(Set::new(DETAIL, 2, 0, &searches, &paths));
    }
    Schema::new(&[(TYPE_K, 1); 4], sets)
}

/// An item of another type or length.
fn change_item(random: &mut Random, schema: &mut Schema) {
    let place = random.below(schema.items.len());
    let item = &mut schema.items[place];
    if random.chance(50) {
        item.kind = random.pick(&[0, 1, 2, 3, 4]);
    } else {
        item.length = random.pick(&[0, 1, 2, 3, 32, 33]);
    }
}

/// A set of another kind, capacity, key, or with other items or paths.
fn change_set(random: &mut Random, schema: &mut Schema) {
    let any_item = random.between(0, schema.items.len() + 1) as u16;
    let any_set = random.between(1, schema.sets.len()) as u16;
    let place = random.below(schema.sets.len());
    let set = &mut schema.sets[place];
    match random.below(9) {
        0 | 1 => set.kind = random.pick(&[0, 1, 2, 2, 3, 4]),
        2 => set.capacity = random.pick(&[0, 1, 4095, 4096, 65535]),
        3 => set.key = any_item,
        4 => set.items.push(any_item),
        5 => set.items.insert(0, any_item),
        6 => drop(set.items.pop()),
        7 => set.paths.push(Path { master: any_set, search: set.items[0], sort: 0 }),
        _ => set.items.resize(random.pick(&[16, 17]), any_item),
    }
}

/// A path with another master, search or sort item, one path more or less.
fn change_path(random: &mut Random, schema: &mut Schema) {
    let any_item = random.between(0, schema.items.len() + 1) as u16;
    let any_set = random.between(0, schema.sets.len() + 1) as u16;
    let details = schema.sets_of(DETAIL);
    let set = &mut schema.sets[usize::from(random.pick(&details)) - 1];
    if set.paths.is_empty() {
        return;
    }
    let own_item = random.pick(&set.items);
    let place = random.below(set.paths.len());
    let path = &mut set.paths[place];
    match random.below(8) {
        0 | 1 => path.master = any_set,
        2 => path.search = any_item,
        3 => path.search = own_item,
        4 => path.sort = any_item,
        5 => path.sort = own_item,
        6 => drop(set.paths.remove(place)),
        _ => set.paths.push(set.paths[place].clone()),
    }
}

/// One word changed to an edge, to one more or less, or to another word of the root.
fn one_word_changed(random: &mut Random, mut words: Vec<u16>) -> Vec<u16> {
    // Rather a word that says something than an unused place.
    let used: Vec<usize> = (0..words.len()).filter(|&at| words[at] != 0).collect();
    let at = if random.chance(75) { random.pick(&used) } else { random.below(words.len()) };
    let (word, other) = (words[at], random.pick(&words));
    let edge = random.pick(&EDGES);
    let small = random.between(1, 6) as u16;
    let (more, less) = (word.wrapping_add(1), word.wrapping_sub(1));
    let any = random.word();
    words[at] = random.pick(&[edge, edge, small, small, other, other, any, more, less]);
    words
}
