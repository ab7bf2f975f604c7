//! `faults`: what a careless host may do through the C interface.

use crate::calls::{Call, State, Step};
use crate::engine::Lent;
use crate::pair::work_model;
use crate::schema::{Schema, Set, AUTOMATIC, DETAIL, MANUAL, TYPE_I, TYPE_K, TYPE_X};

/// Stands in every word that the engine must leave alone.
const GUARD: u16 = 0xA5A5;

/// Calls on document 01's sample base, every one of the six accepted at least once.
const CALLS: &str = "\
new
put 1 1 16706 17220
put 1 6 16706 17220
put 1 2 16706 17220
put 3 2 20 7
put 3 2 10 7
put 3 2 20 7
put 3 9 20 7
find 3 1 2
get 3 5 0
update 3 2 10 8
get 1 7 0 6
delete 1
get 3 4 1
delete 3
find 3 1
get 1 7 0
put 1
update 3";

/// What the host lends: parts of its arrays, all beginning at one offset, of these lengths.
#[derive(Clone)]
struct Loan {
    offset: usize,
    root: usize,
    area: usize,
    cursors: usize,
    buffer: usize,
    status: usize,
    passed: usize,
    empty_is_null: bool,
}

/// A host's arrays.
#[derive(Clone, PartialEq)]
struct Host {
    root: Vec<u16>,
    area: Vec<u16>,
    cursors: Vec<u32>,
    buffer: Vec<u16>,
    status: Vec<u16>,
    passed: Vec<u16>,
}

/// Makes all the calls; answers how many, or what went wrong.
pub fn faults() -> Result<usize, String> {
    let root = sample().words();
    let right = Loan {
        offset: 1,
        root: root.len(),
        area: sample().area_length(),
        cursors: 64,
        buffer: 3,
        status: 10,
        passed: 4,
        empty_is_null: false,
    };
    let mut made = 0;
    for empty_is_null in [false, true] {
        let right = Loan { empty_is_null, ..right.clone() };
        for loan in wrong_lengths(&right) {
            made += refused(&loan, &root)?;
        }
        for loan in odd_parts(&right) {
            made += beside_model(&loan, &root)?;
        }
    }
    Ok(made)
}

/// The sample base.
fn sample() -> Schema {
    let sets = vec![
        Set::new(MANUAL, 5, 1, &[1, 4], &[]),
        Set::new(AUTOMATIC, 5, 2, &[2], &[]),
        Set::new(DETAIL, 4, 0, &[1, 2, 3], &[(1, 1, 2), (2, 2, 0)]),
    ];
    Schema::new(&[(TYPE_K, 1), (TYPE_K, 1), (TYPE_I, 1), (TYPE_X, 2)], sets)
}

fn sample_calls() -> Vec<Call> {
    let call = |line| match Step::read(line) {
        Ok(Some(Step::Call(call))) => call,
        _ => unreachable!("the lines above are calls"),
    };
    CALLS.lines().map(call).collect()
}

/// Lengths of cursors, status and passed that aren't theirs.
fn wrong_lengths(right: &Loan) -> Vec<Loan> {
    let mut loans = Vec::new();
    for wrong in [0, 1, 63, 65, 128] {
        loans.push(Loan { cursors: wrong, ..right.clone() });
    }
    for wrong in [0, 1, 9, 11, 20] {
        loans.push(Loan { status: wrong, ..right.clone() });
    }
    for wrong in [0, 1, 3, 5, 8] {
        loans.push(Loan { passed: wrong, ..right.clone() });
    }
    loans
}

/// Offsets of all kinds, and lengths of root, area and buffer that are odd, too short, too long or
/// nothing at all.
fn odd_parts(right: &Loan) -> Vec<Loan> {
    let mut loans = Vec::new();
    for offset in 0..=8 {
        loans.push(Loan { offset, ..right.clone() });
        for area in [0, 1, right.area - 1, right.area + 1] {
            loans.push(Loan { offset, area, ..right.clone() });
        }
        for root in [0, 1, 2, right.root - 1, right.root + 1] {
            loans.push(Loan { offset, root, ..right.clone() });
        }
        for buffer in [0, 2, 4, 5] {
            loans.push(Loan { offset, buffer, ..right.clone() });
        }
    }
    loans
}

impl Host {
    /// Arrays with guard words on both sides of what is lent.
    fn new(loan: &Loan, root: &[u16]) -> Host {
        let guards = |length: usize| vec![GUARD; loan.offset + length + 8];
        let mut host = Host {
            root: guards(loan.root),
            area: guards(loan.area),
            cursors: vec![u32::from(GUARD); loan.offset + loan.cursors + 8],
            buffer: guards(loan.buffer),
            status: guards(loan.status),
            passed: guards(loan.passed),
        };
        host.cursors[loan.offset..loan.offset + loan.cursors].fill(0);
        let length = loan.root.min(root.len());
        host.root[loan.offset..loan.offset + length].copy_from_slice(&root[..length]);
        host
    }

    fn call(&mut self, loan: &Loan, call: &Call) -> u16 {
        let at = loan.offset;
        let mut lent = Lent {
            root: &self.root[at..at + loan.root],
            area: &mut self.area[at..at + loan.area],
            cursors: &mut self.cursors[at..at + loan.cursors],
            buffer: &mut self.buffer[at..at + loan.buffer],
            status: &mut self.status[at..at + loan.status],
            passed: &mut self.passed[at..at + loan.passed],
            empty_is_null: loan.empty_is_null,
        };
        lent.call(call)
    }

    /// What the host must hold after a call whose results are these, guards included.
    fn expect(&mut self, loan: &Loan, state: &State, status: &[u16], passed: Option<&[u16]>) {
        let at = loan.offset;
        self.area[at..at + loan.area].copy_from_slice(&state.area);
        self.cursors[at..at + loan.cursors].copy_from_slice(&state.cursors);
        self.buffer[at..at + loan.buffer].copy_from_slice(&state.buffer);
        self.status[at..at + loan.status].copy_from_slice(status);
        if let Some(passed) = passed {
            self.passed[at..at + loan.passed].copy_from_slice(passed);
        }
    }
}

/// Calls with a wrong length must return 1 and write nothing.
fn refused(loan: &Loan, root: &[u16]) -> Result<usize, String> {
    let mut host = Host::new(loan, root);
    let before = host.clone();
    let mut made = 0;
    for call in sample_calls() {
        let has_cursors = !matches!(call, Call::New);
        let has_passed = matches!(call, Call::Put { .. });
        let is_wrong = loan.status != 10
            || has_cursors && loan.cursors != 64
            || has_passed && loan.passed != 4;
        if is_wrong {
            let returned = host.call(loan, &call);
            if returned != 1 || host != before {
                return Err(failure(loan, &call, returned));
            }
            made += 1;
        }
    }
    Ok(made)
}

fn failure(loan: &Loan, call: &Call, returned: u16) -> String {
    let Loan { offset, root, area, cursors, buffer, status, passed, empty_is_null } = loan;
    format!(
        "{call}: returned {returned} (offset {offset}, root {root}, area {area}, cursors \
         {cursors}, buffer {buffer}, status {status}, passed {passed}, null {empty_is_null})"
    )
}

/// Calls that are worked must return 0, answer as the model does and leave the guards.
fn beside_model(loan: &Loan, root: &[u16]) -> Result<usize, String> {
    let mut host = Host::new(loan, root);
    let mut expected = host.clone();
    let part = |words: &[u16], length| words[loan.offset..loan.offset + length].to_vec();
    let mut state = State::new();
    state.root = part(&host.root, loan.root);
    state.area = part(&host.area, loan.area);
    state.buffer = part(&host.buffer, loan.buffer);
    let calls = sample_calls();
    for call in &calls {
        let answer = work_model(&mut state, call);
        let passed = matches!(call, Call::Put { .. }).then_some(&answer.passed[..]);
        expected.expect(loan, &state, &answer.status, passed);
        let returned = host.call(loan, call);
        if returned != 0 || host != expected {
            return Err(failure(loan, call, returned));
        }
    }
    Ok(calls.len())
}
