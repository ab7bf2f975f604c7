//! `cases`: a script of calls, each with its answer worked out by hand, on the model alone. Printed
//! is the script itself, and after each call all that it answered and changed.

use crate::calls::{Answer, Call, State, Step, Words};
use crate::pair::work_model;
use std::fmt::Display;
use std::str::FromStr;

/// A script, found readable.
pub struct Script {
    path: String,
    lines: Vec<Line>,
}

struct Line {
    text: String,
    meant: Meant,
}

enum Meant {
    /// A comment, or a blank line.
    Text,
    Prepare(Step),
    /// `root+`: more words of the root.
    MoreRoot(Vec<u16>),
    /// `root-poke`: one word of the root.
    RootWord(usize, u16),
    Call(Call),
    Worked(Worked),
}

/// A line with `=`: what was worked out by hand.
enum Worked {
    Answer(Answer),
    Area(usize, Vec<u16>),
    Cursor(usize, Vec<u32>),
    Buffer(Vec<u16>),
}

impl Script {
    pub fn load(path: &str) -> Result<Script, String> {
        let text = std::fs::read_to_string(path).map_err(|why| format!("{path}: {why}"))?;
        let mut lines = Vec::new();
        for (index, text) in text.lines().enumerate() {
            let meant = read_line(text);
            let meant = meant.ok_or_else(|| format!("{path}:{} can't be read", index + 1))?;
            lines.push(Line { text: text.into(), meant });
        }
        Ok(Script { path: path.into(), lines })
    }

    /// Works the script; answers whether the model answers as it was worked out by hand.
    pub fn work(&self) -> bool {
        let mut stage = Stage::new();
        let mut well = true;
        for (index, line) in self.lines.iter().enumerate() {
            println!("{}", line.text);
            if let Err(what) = stage.work(&line.meant) {
                eprintln!("{}:{}: {what}", self.path, index + 1);
                well = false;
            }
        }
        if let Err(what) = stage.answer_given() {
            eprintln!("{}: {what}", self.path);
            well = false;
        }
        if well {
            eprintln!("{}: {} calls, all as worked out by hand", self.path, stage.calls);
        }
        well
    }
}

/// What a line means; `None` if it can't be read.
fn read_line(line: &str) -> Option<Meant> {
    let words: Vec<&str> = line.split_ascii_whitespace().collect();
    let (name, rest) = match words.split_first() {
        None => return Some(Meant::Text),
        Some((name, _)) if name.starts_with('#') => return Some(Meant::Text),
        Some((name, rest)) => (*name, rest),
    };
    Some(match name {
        "=" => Meant::Worked(read_worked(rest)?),
        "root+" => Meant::MoreRoot(numbers(rest)?),
        "root-poke" => match rest {
            [at, word] => Meant::RootWord(at.parse().ok()?, word.parse().ok()?),
            _ => return None,
        },
        // The vectors' lines that would print or fill the area by other means.
        "area" | "junk" | "area?" => return None,
        _ => match Step::read(line).ok()?? {
            Step::Call(call) => Meant::Call(call),
            step => Meant::Prepare(step),
        },
    })
}

fn read_worked(words: &[&str]) -> Option<Worked> {
    Some(match words {
        ["area", at, words @ ..] => Worked::Area(at.parse().ok()?, numbers(words)?),
        ["cursor", set, cursor @ ..] => {
            let set = set.parse().ok().filter(|set| (1..=16).contains(set))?;
            Worked::Cursor(set, numbers(cursor).filter(|cursor| cursor.len() == 4)?)
        }
        ["buffer", words @ ..] => Worked::Buffer(numbers(words)?),
        answer => Worked::Answer(read_answer(answer)?),
    })
}

/// A condition word alone, with nine zeros; or condition word, entry length and the four two-word
/// numbers of the status, and the lines passed if there were any.
fn read_answer(words: &[&str]) -> Option<Answer> {
    let mut status = [0; 10];
    if let [condition] = words {
        status[0] = condition.parse::<i16>().ok()? as u16;
        return Some(Answer { status, passed: [0; 4] });
    }
    let (words, passed) = words.split_at_checked(6)?;
    let single: Vec<u16> = numbers(&words[..2])?;
    let double: Vec<u32> = numbers(&words[2..])?;
    status[..2].copy_from_slice(&single);
    for (pair, number) in status[2..].chunks_mut(2).zip(double) {
        pair.copy_from_slice(&[(number >> 16) as u16, number as u16]);
    }
    let passed = match passed {
        [] => [0; 4],
        passed => numbers(passed)?.try_into().ok()?,
    };
    Some(Answer { status, passed })
}

fn numbers<T: FromStr>(words: &[&str]) -> Option<Vec<T>> {
    words.iter().map(|word| word.parse().ok()).collect()
}

/// The base that the script works on, and the last call's answer.
struct Stage {
    state: State,
    answer: Option<Answer>,
    /// Whether a call's answer is still to be given by a line with `=`.
    owed: bool,
    calls: usize,
}

impl Stage {
    fn new() -> Stage {
        Stage { state: State::new(), answer: None, owed: false, calls: 0 }
    }

    fn work(&mut self, meant: &Meant) -> Result<(), String> {
        match meant {
            Meant::Text => {}
            Meant::Prepare(step) => self.state.prepare(step),
            Meant::MoreRoot(words) => self.state.root.extend(words),
            Meant::RootWord(at, word) => {
                if let Some(place) = self.state.root.get_mut(*at) {
                    *place = *word;
                }
            }
            Meant::Call(call) => return self.call(call),
            Meant::Worked(worked) => return self.hold(worked),
        }
        Ok(())
    }

    fn call(&mut self, call: &Call) -> Result<(), String> {
        let given = self.answer_given();
        let before = self.state.clone();
        let answer = work_model(&mut self.state, call);
        print!("{}", report(call, &answer, &before, &self.state));
        (self.answer, self.owed) = (Some(answer), true);
        self.calls += 1;
        // "nothing stored, cursors as given"
        if answer.condition() != 0 && before != self.state {
            return Err("refused, but something has changed".into());
        }
        given
    }

    fn answer_given(&self) -> Result<(), String> {
        if self.owed {
            return Err("the last call's answer wasn't worked out".into());
        }
        Ok(())
    }

    /// Holds the model to what was worked out by hand.
    fn hold(&mut self, worked: &Worked) -> Result<(), String> {
        let state = &self.state;
        match worked {
            Worked::Answer(by_hand) => {
                self.owed = false;
                let answer = self.answer.ok_or("there is no call to be answered")?;
                match answer == *by_hand {
                    true => Ok(()),
                    false => Err(format!("the model answers {answer}, by hand {by_hand}")),
                }
            }
            Worked::Area(at, words) => {
                let end = state.area.len().min(at + words.len());
                same("area", state.area.get(*at..end).unwrap_or(&[]), words)
            }
            Worked::Cursor(set, cursor) => {
                same("cursor", &state.cursors[4 * (set - 1)..4 * set], cursor)
            }
            Worked::Buffer(words) => same("buffer", &state.buffer, words),
        }
    }
}

fn same<T: PartialEq + Display>(what: &str, model: &[T], by_hand: &[T]) -> Result<(), String> {
    if model == by_hand {
        return Ok(());
    }
    Err(format!("the model has {what}{}, by hand{}", Words(model), Words(by_hand)))
}

/// All that a call answered and changed, as lines.
fn report(call: &Call, answer: &Answer, before: &State, after: &State) -> String {
    let mut lines = format!("  status{}\n", Words(&answer.status));
    if matches!(call, Call::Put { .. }) || answer.passed != [0; 4] {
        lines += &format!("  passed{}\n", Words(&answer.passed));
    }
    let cursors = before.cursors.chunks(4).zip(after.cursors.chunks(4));
    for (index, (before, after)) in cursors.enumerate() {
        if before != after {
            lines += &format!("  cursor {}:{} ->{}\n", index + 1, Words(before), Words(after));
        }
    }
    lines += &changes("area", &before.area, &after.area);
    lines += &changes("buffer", &before.buffer, &after.buffer);
    if before == after {
        lines += "  nothing changed\n";
    }
    lines
}

/// Every word that changed, from and to.
fn changes(what: &str, before: &[u16], after: &[u16]) -> String {
    let pairs = before.iter().zip(after).enumerate();
    let changed = pairs.filter(|(_, (before, after))| before != after);
    let changed = changed.map(|(at, (before, after))| format!("{at}: {before} -> {after}"));
    let changed: Vec<String> = changed.collect();
    match changed.is_empty() {
        true => String::new(),
        false => format!("  {what} {}\n", changed.join(", ")),
    }
}
