//! The hand-written Rust under the names by which the second program's driver calls its model.

use crate::plain;

pub use plain::{area_length, Wanted};

pub type Status = [u16; 10];
pub type Passed = [u16; 4];

#[derive(Clone, Copy, Default)]
pub struct Cursor {
    pub record: u32,
    pub path: u32,
    pub back: u32,
    pub forward: u32,
}

pub type Cursors = [Cursor; 16];

/// Works a call on the cursors as the 64 numbers that it takes; all lengths are right.
fn with_numbers(cursors: &mut Cursors, call: impl FnOnce(&mut [u32; 64]) -> u16) {
    let mut numbers = [0; 64];
    for (of, cursor) in numbers.chunks_mut(4).zip(cursors.iter()) {
        of.copy_from_slice(&[cursor.record, cursor.path, cursor.back, cursor.forward]);
    }
    assert_eq!(call(&mut numbers), 0);
    for (of, cursor) in numbers.chunks(4).zip(cursors) {
        *cursor = Cursor { record: of[0], path: of[1], back: of[2], forward: of[3] };
    }
}

pub fn make(root: &[u16], area: &mut [u16]) -> Status {
    let mut status = [0; 10];
    assert_eq!(plain::make(root, area, &mut status), 0);
    status
}

pub fn find(
    root: &[u16],
    area: &mut [u16],
    cursors: &mut Cursors,
    set: u16,
    item: u16,
    value: &[u16],
) -> Status {
    let mut status = [0; 10];
    with_numbers(cursors, |c| plain::find(root, area, c, set, item, value, &mut status));
    status
}

pub fn get(
    root: &[u16],
    area: &mut [u16],
    cursors: &mut Cursors,
    set: u16,
    wanted: Wanted,
    buffer: &mut [u16],
) -> Status {
    let mut status = [0; 10];
    with_numbers(cursors, |c| plain::get(root, area, c, set, wanted, buffer, &mut status));
    status
}

pub fn put(
    root: &[u16],
    area: &mut [u16],
    cursors: &mut Cursors,
    set: u16,
    entry: &[u16],
) -> (Status, Passed) {
    let (mut status, mut passed) = ([0; 10], [0; 4]);
    with_numbers(cursors, |c| plain::put(root, area, c, set, entry, &mut status, &mut passed));
    (status, passed)
}

pub fn update(
    root: &[u16],
    area: &mut [u16],
    cursors: &Cursors,
    set: u16,
    entry: &[u16],
) -> Status {
    let mut status = [0; 10];
    let mut copy = *cursors;
    with_numbers(&mut copy, |c| plain::update(root, area, c, set, entry, &mut status));
    status
}

pub fn delete(root: &[u16], area: &mut [u16], cursors: &Cursors, set: u16) -> Status {
    let mut status = [0; 10];
    let mut copy = *cursors;
    with_numbers(&mut copy, |c| plain::delete(root, area, c, set, &mut status));
    status
}
