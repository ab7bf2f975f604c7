//! Calls and what they work on, in memory and as lines of text (the format of the vectors).

use std::fmt::{self, Display, Formatter};

/// What a call works on: root, area, the 64 cursor numbers and the get buffer.
#[derive(Clone, PartialEq, Eq)]
pub struct State {
    pub root: Vec<u16>,
    pub area: Vec<u16>,
    pub cursors: [u32; 64],
    pub buffer: Vec<u16>,
}

#[derive(Clone)]
pub enum Call {
    New,
    Find { set: u16, item: u16, value: Vec<u16> },
    Get { set: u16, mode: u16, record: u32, value: Vec<u16> },
    Put { set: u16, entry: Vec<u16> },
    Update { set: u16, entry: Vec<u16> },
    Delete { set: u16 },
}

/// The names of the calls, in the order of `Call::index`.
pub const NAMES: [&str; 6] = ["new", "find", "get", "put", "update", "delete"];

/// What a call answers beside the state.
#[derive(Clone, Copy, PartialEq, Eq)]
pub struct Answer {
    pub status: [u16; 10],
    pub passed: [u16; 4],
}

/// One line: a call, or a change of the state before one.
#[derive(Clone)]
pub enum Step {
    Root(Vec<u16>),
    Area(Vec<u16>),
    Zeros(usize),
    Junk(usize, u64),
    Poke(usize, u16),
    Cursor(usize, [u32; 4]),
    Buffer(Vec<u16>),
    Reset,
    Call(Call),
    ShowArea,
}

impl State {
    pub fn new() -> State {
        State { root: Vec::new(), area: Vec::new(), cursors: [0; 64], buffer: Vec::new() }
    }

    /// Carries out a line that is no call.
    pub fn prepare(&mut self, step: &Step) {
        match step {
            Step::Root(words) => self.root.clone_from(words),
            Step::Area(words) => self.area.clone_from(words),
            Step::Zeros(length) => self.area = vec![0; *length],
            Step::Junk(length, seed) => self.area = junk(*length, *seed),
            Step::Poke(at, word) => {
                if let Some(place) = self.area.get_mut(*at) {
                    *place = *word;
                }
            }
            Step::Cursor(set, numbers) => {
                self.cursors[4 * (set - 1)..4 * set].copy_from_slice(numbers);
            }
            Step::Buffer(words) => self.buffer.clone_from(words),
            Step::Reset => self.cursors = [0; 64],
            Step::Call(_) | Step::ShowArea => {}
        }
    }

    /// The line that the vectors give for a call.
    pub fn line(&self, call: &Call, answer: &Answer) -> String {
        let cursors = hash(self.cursors.iter().copied());
        let area = hash(self.area.iter().map(|&word| u32::from(word)));
        let buffer = hash(self.buffer.iter().map(|&word| u32::from(word)));
        format!("{} {answer} | {cursors:x} | {area:x} | {buffer:x}", call.name())
    }

    pub fn area_line(&self) -> String {
        format!("area{}", Words(&self.area))
    }
}

/// The vectors' pseudo-random words.
fn junk(length: usize, seed: u64) -> Vec<u16> {
    let mut x = seed;
    let mut next = || {
        x = x.wrapping_mul(6364136223846793005).wrapping_add(1442695040888963407);
        (x >> 33) as u16
    };
    (0..length).map(|_| next()).collect()
}

/// FNV-1a 64 over the numbers' bytes, four each, least first.
fn hash(numbers: impl Iterator<Item = u32>) -> u64 {
    numbers.flat_map(u32::to_le_bytes).fold(0xcbf2_9ce4_8422_2325, |hash: u64, byte| {
        (hash ^ u64::from(byte)).wrapping_mul(0x0100_0000_01b3)
    })
}

impl Call {
    pub fn index(&self) -> usize {
        match self {
            Call::New => 0,
            Call::Find { .. } => 1,
            Call::Get { .. } => 2,
            Call::Put { .. } => 3,
            Call::Update { .. } => 4,
            Call::Delete { .. } => 5,
        }
    }

    pub fn name(&self) -> &'static str {
        NAMES[self.index()]
    }

    /// The words that a call is given: a find's or get's value, a put's or update's entry.
    pub fn words(&self) -> &[u16] {
        match self {
            Call::Find { value, .. } | Call::Get { value, .. } => value,
            Call::Put { entry, .. } | Call::Update { entry, .. } => entry,
            Call::New | Call::Delete { .. } => &[],
        }
    }
}

impl Answer {
    /// The condition word: 0, or the number of the refusal.
    pub fn condition(&self) -> i16 {
        self.status[0] as i16
    }
}

/// Numbers, each after a blank.
pub struct Words<'w, T>(pub &'w [T]);

impl<T: Display> Display for Words<'_, T> {
    fn fmt(&self, f: &mut Formatter) -> fmt::Result {
        self.0.iter().try_for_each(|word| write!(f, " {word}"))
    }
}

impl Display for Answer {
    fn fmt(&self, f: &mut Formatter) -> fmt::Result {
        let status = Words(&self.status).to_string();
        write!(f, "{} |{}", status.trim_start(), Words(&self.passed))
    }
}

impl Display for Call {
    fn fmt(&self, f: &mut Formatter) -> fmt::Result {
        f.write_str(self.name())?;
        match self {
            Call::New => Ok(()),
            Call::Find { set, item, value } => write!(f, " {set} {item}{}", Words(value)),
            Call::Get { set, mode, record, value } => {
                write!(f, " {set} {mode} {record}{}", Words(value))
            }
            Call::Put { set, entry } | Call::Update { set, entry } => {
                write!(f, " {set}{}", Words(entry))
            }
            Call::Delete { set } => write!(f, " {set}"),
        }
    }
}

impl Display for Step {
    fn fmt(&self, f: &mut Formatter) -> fmt::Result {
        match self {
            Step::Root(words) => write!(f, "root{}", Words(words)),
            Step::Area(words) => write!(f, "area{}", Words(words)),
            Step::Zeros(length) => write!(f, "zeros {length}"),
            Step::Junk(length, seed) => write!(f, "junk {length} {seed}"),
            Step::Poke(at, word) => write!(f, "poke {at} {word}"),
            Step::Cursor(set, numbers) => write!(f, "cursor {set}{}", Words(numbers)),
            Step::Buffer(words) => write!(f, "buffer{}", Words(words)),
            Step::Reset => f.write_str("reset"),
            Step::Call(call) => write!(f, "{call}"),
            Step::ShowArea => f.write_str("area?"),
        }
    }
}

impl Step {
    /// Reads a line. `Ok(None)`: the vectors' "unknown lines: ignored"; `Err`: a known command
    /// with numbers that don't fit.
    pub fn read(line: &str) -> Result<Option<Step>, String> {
        let mut words = line.split_ascii_whitespace();
        let Some(name) = words.next() else { return Ok(None) };
        let mut numbers = Numbers(words.map(str::parse).collect::<Result<Vec<u64>, _>>());
        let known = ["root", "area", "zeros", "junk", "poke", "cursor", "buffer", "reset", "area?"];
        if !known.contains(&name) && !NAMES.contains(&name) {
            return Ok(None);
        }
        let step = numbers.step(name).filter(|_| numbers.all_used());
        step.map(Some).ok_or_else(|| format!("bad numbers for {name}"))
    }
}

/// The numbers of a line that are still to be read.
struct Numbers(Result<Vec<u64>, std::num::ParseIntError>);

impl Numbers {
    fn one<T: TryFrom<u64>>(&mut self) -> Option<T> {
        let numbers = self.0.as_mut().ok()?;
        if numbers.is_empty() {
            return None;
        }
        T::try_from(numbers.remove(0)).ok()
    }

    /// An area's length; no root asks for more words than this.
    fn length(&mut self) -> Option<usize> {
        self.one().filter(|length| *length <= 1 << 26)
    }

    fn rest(&mut self) -> Option<Vec<u16>> {
        let numbers = self.0.as_mut().ok()?;
        numbers.drain(..).map(|number| u16::try_from(number).ok()).collect()
    }

    fn all_used(&self) -> bool {
        self.0.as_ref().is_ok_and(Vec::is_empty)
    }

    fn step(&mut self, name: &str) -> Option<Step> {
        Some(match name {
            "root" => Step::Root(self.rest()?),
            "area" => Step::Area(self.rest()?),
            "zeros" => Step::Zeros(self.length()?),
            "junk" => Step::Junk(self.length()?, self.one()?),
            "poke" => Step::Poke(self.one()?, self.one()?),
            "cursor" => {
                let set = self.one().filter(|set| (1..=16).contains(set))?;
                Step::Cursor(set, [self.one()?, self.one()?, self.one()?, self.one()?])
            }
            "buffer" => Step::Buffer(self.rest()?),
            "reset" => Step::Reset,
            "area?" => Step::ShowArea,
            _ => Step::Call(self.call(name)?),
        })
    }

    fn call(&mut self, name: &str) -> Option<Call> {
        if name == "new" {
            return Some(Call::New);
        }
        let set = self.one()?;
        Some(match name {
            "find" => Call::Find { set, item: self.one()?, value: self.rest()? },
            "get" => {
                let (mode, record) = (self.one()?, self.one()?);
                Call::Get { set, mode, record, value: self.rest()? }
            }
            "put" => Call::Put { set, entry: self.rest()? },
            "update" => Call::Update { set, entry: self.rest()? },
            "delete" => Call::Delete { set },
            _ => return None,
        })
    }
}
