//! The two sides that work on the same words: the engine through its C interface, and the Rust
//! written by hand. Both get the same slices, so a call costs both the same to make.

use crate::plain::{self, Wanted};

/// What a host lends to its calls.
#[derive(Clone)]
pub struct Host {
    pub root: Vec<u16>,
    pub area: Vec<u16>,
    pub cursors: [u32; 64],
    pub status: [u16; 10],
    pub passed: [u16; 4],
    pub buffer: Vec<u16>,
}

/// The longest entry that a root can describe.
const ENTRY_MOST: usize = 512;

impl Host {
    /// A host with an area of the root's length, not made yet.
    pub fn new(root: &[u16]) -> Host {
        let length = plain::area_length(root).expect("the benchmark's roots keep the rules");
        Host {
            root: root.to_vec(),
            area: vec![0; length],
            cursors: [0; 64],
            status: [0; 10],
            passed: [0; 4],
            buffer: vec![0; ENTRY_MOST],
        }
    }
}

/// A side works calls on what a host lends. The functions are called through no pointer, so that
/// neither side pays for one.
pub trait Side {
    fn make(host: &mut Host);
    fn find(host: &mut Host, set: u16, item: u16, value: &[u16]);
    fn get(host: &mut Host, set: u16, wanted: Wanted);
    fn put(host: &mut Host, set: u16, entry: &[u16]);
    fn update(host: &mut Host, set: u16, entry: &[u16]);
    fn delete(host: &mut Host, set: u16);
}

/// Stands in the status where a call returned 1 and so was not worked: no condition word.
const NOT_WORKED: u16 = 0xDEAD;

impl Host {
    fn worked(&mut self, returned: u16) {
        if returned != 0 {
            self.status[0] = NOT_WORKED;
        }
    }
}

pub struct Plain;

impl Side for Plain {
    fn make(host: &mut Host) {
        let returned = plain::make(&host.root, &mut host.area, &mut host.status);
        host.worked(returned);
    }

    fn find(host: &mut Host, set: u16, item: u16, value: &[u16]) {
        let Host { root, area, cursors, status, .. } = host;
        let returned = plain::find(root, area, cursors, set, item, value, status);
        host.worked(returned);
    }

    fn get(host: &mut Host, set: u16, wanted: Wanted) {
        let Host { root, area, cursors, status, buffer, .. } = host;
        let returned = plain::get(root, area, cursors, set, wanted, buffer, status);
        host.worked(returned);
    }

    fn put(host: &mut Host, set: u16, entry: &[u16]) {
        let Host { root, area, cursors, status, passed, .. } = host;
        let returned = plain::put(root, area, cursors, set, entry, status, passed);
        host.worked(returned);
    }

    fn update(host: &mut Host, set: u16, entry: &[u16]) {
        let Host { root, area, cursors, status, .. } = host;
        let returned = plain::update(root, area, cursors, set, entry, status);
        host.worked(returned);
    }

    fn delete(host: &mut Host, set: u16) {
        let Host { root, area, cursors, status, .. } = host;
        let returned = plain::delete(root, area, cursors, set, status);
        host.worked(returned);
    }
}

/// The functions as a host declares them. A slice is a pointer and a count of elements.
mod c {
    type In = *const u16;
    type Out = *mut u16;
    type Cursors = *mut u32;
    type Count = usize;

    #[rustfmt::skip]
    unsafe extern "C" {
        pub fn dbmake(root: In, _: Count, area: Out, _: Count, status: Out, _: Count) -> u16;
        pub fn dbfind(
            root: In, _: Count, area: In, _: Count, cursors: Cursors, _: Count,
            set: u16, item: u16, value: In, _: Count, status: Out, _: Count,
        ) -> u16;
        pub fn dbget(
            root: In, _: Count, area: In, _: Count, cursors: Cursors, _: Count,
            set: u16, mode: u16, record: u32, value: In, _: Count, buffer: Out, _: Count,
            status: Out, _: Count,
        ) -> u16;
        pub fn dbput(
            root: In, _: Count, area: Out, _: Count, cursors: Cursors, _: Count,
            set: u16, entry: In, _: Count, status: Out, _: Count, passed: Out, _: Count,
        ) -> u16;
        pub fn dbupdate(
            root: In, _: Count, area: Out, _: Count, cursors: Cursors, _: Count,
            set: u16, entry: In, _: Count, status: Out, _: Count,
        ) -> u16;
        pub fn dbdelete(
            root: In, _: Count, area: Out, _: Count, cursors: Cursors, _: Count,
            set: u16, status: Out, _: Count,
        ) -> u16;
    }
}

pub struct Engine;

// Sound, each of the six: every pointer and count is a slice's that lives until the call is over,
// and those that the engine may write come from slices lent to be written.
#[rustfmt::skip]
impl Side for Engine {
    fn make(host: &mut Host) {
        let Host { root: r, area: a, status: s, .. } = host;
        let returned = unsafe {
            c::dbmake(r.as_ptr(), r.len(), a.as_mut_ptr(), a.len(), s.as_mut_ptr(), s.len())
        };
        host.worked(returned);
    }

    fn find(host: &mut Host, set: u16, item: u16, value: &[u16]) {
        let Host { root: r, area: a, cursors: c, status: s, .. } = host;
        let returned = unsafe {
            c::dbfind(
                r.as_ptr(), r.len(), a.as_ptr(), a.len(), c.as_mut_ptr(), c.len(),
                set, item, value.as_ptr(), value.len(), s.as_mut_ptr(), s.len(),
            )
        };
        host.worked(returned);
    }

    fn get(host: &mut Host, set: u16, wanted: Wanted) {
        let Host { root: r, area: a, cursors: c, status: s, buffer: b, .. } = host;
        let Wanted { mode, record, value } = wanted;
        let returned = unsafe {
            c::dbget(
                r.as_ptr(), r.len(), a.as_ptr(), a.len(), c.as_mut_ptr(), c.len(),
                set, mode, record, value.as_ptr(), value.len(), b.as_mut_ptr(), b.len(),
                s.as_mut_ptr(), s.len(),
            )
        };
        host.worked(returned);
    }

    fn put(host: &mut Host, set: u16, entry: &[u16]) {
        let Host { root: r, area: a, cursors: c, status: s, passed: p, .. } = host;
        let returned = unsafe {
            c::dbput(
                r.as_ptr(), r.len(), a.as_mut_ptr(), a.len(), c.as_mut_ptr(), c.len(),
                set, entry.as_ptr(), entry.len(), s.as_mut_ptr(), s.len(),
                p.as_mut_ptr(), p.len(),
            )
        };
        host.worked(returned);
    }

    fn update(host: &mut Host, set: u16, entry: &[u16]) {
        let Host { root: r, area: a, cursors: c, status: s, .. } = host;
        let returned = unsafe {
            c::dbupdate(
                r.as_ptr(), r.len(), a.as_mut_ptr(), a.len(), c.as_mut_ptr(), c.len(),
                set, entry.as_ptr(), entry.len(), s.as_mut_ptr(), s.len(),
            )
        };
        host.worked(returned);
    }

    fn delete(host: &mut Host, set: u16) {
        let Host { root: r, area: a, cursors: c, status: s, .. } = host;
        let returned = unsafe {
            c::dbdelete(
                r.as_ptr(), r.len(), a.as_mut_ptr(), a.len(), c.as_mut_ptr(), c.len(),
                set, s.as_mut_ptr(), s.len(),
            )
        };
        host.worked(returned);
    }
}
