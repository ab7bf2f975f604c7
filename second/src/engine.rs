//! The engine, through its C interface.

use crate::calls::{Answer, Call, State};

/// The functions as a host declares them. A slice is a pointer and a count of elements.
mod c {
    type In = *const u16;
    type Out = *mut u16;
    type Cursors = *mut u32;
    type Count = usize;

    #[rustfmt::skip]
    unsafe extern "C" {
        pub fn dbmake(root: In, _: Count, area: Out, _: Count, status: Out, _: Count) -> u16;
        pub fn dbfind(
            root: In, _: Count, area: In, _: Count, cursors: Cursors, _: Count,
            set: u16, item: u16, value: In, _: Count, status: Out, _: Count,
        ) -> u16;
        pub fn dbget(
            root: In, _: Count, area: In, _: Count, cursors: Cursors, _: Count,
            set: u16, mode: u16, record: u32, value: In, _: Count, buffer: Out, _: Count,
            status: Out, _: Count,
        ) -> u16;
        pub fn dbput(
            root: In, _: Count, area: Out, _: Count, cursors: Cursors, _: Count,
            set: u16, entry: In, _: Count, status: Out, _: Count, passed: Out, _: Count,
        ) -> u16;
        pub fn dbupdate(
            root: In, _: Count, area: Out, _: Count, cursors: Cursors, _: Count,
            set: u16, entry: In, _: Count, status: Out, _: Count,
        ) -> u16;
        pub fn dbdelete(
            root: In, _: Count, area: Out, _: Count, cursors: Cursors, _: Count,
            set: u16, status: Out, _: Count,
        ) -> u16;
    }
}

/// What a host lends to a call beside the call's own arguments.
pub struct Lent<'l> {
    pub root: &'l [u16],
    pub area: &'l mut [u16],
    pub cursors: &'l mut [u32],
    pub buffer: &'l mut [u16],
    pub status: &'l mut [u16],
    pub passed: &'l mut [u16],
    /// Empty slices go as null pointers.
    pub empty_is_null: bool,
}

/// A slice as C takes it: a pointer and a count of elements.
struct Part<T> {
    at: *mut T,
    n: usize,
}

/// Lends a slice that the engine only reads.
fn read<T>(words: &[T], empty_is_null: bool) -> Part<T> {
    part(words.as_ptr().cast_mut(), words.len(), empty_is_null)
}

/// Lends a slice that the engine may write.
fn write<T>(words: &mut [T], empty_is_null: bool) -> Part<T> {
    part(words.as_mut_ptr(), words.len(), empty_is_null)
}

fn part<T>(at: *mut T, n: usize, empty_is_null: bool) -> Part<T> {
    let null = n == 0 && empty_is_null;
    Part { at: if null { std::ptr::null_mut() } else { at }, n }
}

impl Lent<'_> {
    /// Makes the call and answers what the C function returns.
    #[rustfmt::skip]
    pub fn call(&mut self, call: &Call) -> u16 {
        let null = self.empty_is_null;
        let (r, a) = (read(self.root, null), write(self.area, null));
        let (c, b) = (write(self.cursors, null), write(self.buffer, null));
        let (s, p) = (write(self.status, null), write(self.passed, null));
        let w = read(call.words(), null);
        // Sound: each pointer and count is a slice's that lives until the call is over, and those
        // that the engine may write come from slices lent to be written.
        unsafe {
            match *call {
                Call::New => c::dbmake(r.at, r.n, a.at, a.n, s.at, s.n),
                Call::Find { set, item, .. } => c::dbfind(
                    r.at, r.n, a.at, a.n, c.at, c.n, set, item, w.at, w.n, s.at, s.n,
                ),
                Call::Get { set, mode, record, .. } => c::dbget(
                    r.at, r.n, a.at, a.n, c.at, c.n, set, mode, record, w.at, w.n, b.at, b.n,
                    s.at, s.n,
                ),
                Call::Put { set, .. } => c::dbput(
                    r.at, r.n, a.at, a.n, c.at, c.n, set, w.at, w.n, s.at, s.n, p.at, p.n,
                ),
                Call::Update { set, .. } => c::dbupdate(
                    r.at, r.n, a.at, a.n, c.at, c.n, set, w.at, w.n, s.at, s.n,
                ),
                Call::Delete { set } => c::dbdelete(
                    r.at, r.n, a.at, a.n, c.at, c.n, set, s.at, s.n,
                ),
            }
        }
    }
}

/// No condition word: stands where the engine should have answered and hasn't.
const UNANSWERED: u16 = 0xDEAD;

/// Works a call on the engine.
pub fn work(state: &mut State, call: &Call) -> Answer {
    let passed = if let Call::Put { .. } = call { UNANSWERED } else { 0 };
    let mut answer = Answer { status: [UNANSWERED; 10], passed: [passed; 4] };
    let mut lent = Lent {
        root: &state.root,
        area: &mut state.area,
        cursors: &mut state.cursors,
        buffer: &mut state.buffer,
        status: &mut answer.status,
        passed: &mut answer.passed,
        empty_is_null: false,
    };
    if lent.call(call) != 0 {
        answer.status = [UNANSWERED; 10];
    }
    answer
}
