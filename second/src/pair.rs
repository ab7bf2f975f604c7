//! Engine and model side by side: the same steps on both, compared after each call.

use crate::calls::{Answer, Call, State, Step};
use crate::engine;
use crate::model::{self, Cursor, Cursors, Wanted};

/// The two states, which must stay equal.
pub struct Pair {
    pub engine: State,
    pub model: State,
}

/// The answers of both to one call.
pub struct Answers {
    pub engine: Answer,
    pub model: Answer,
}

impl Pair {
    pub fn new() -> Pair {
        Pair { engine: State::new(), model: State::new() }
    }

    /// Carries out a line that is no call, on both.
    pub fn prepare(&mut self, step: &Step) {
        self.engine.prepare(step);
        self.model.prepare(step);
    }

    pub fn call(&mut self, call: &Call) -> Answers {
        let engine = engine::work(&mut self.engine, call);
        let model = work_model(&mut self.model, call);
        Answers { engine, model }
    }

    /// What differs after a call, if anything does: status, passed numbers, cursors, buffer or
    /// any word of the area.
    pub fn difference(&self, answers: &Answers) -> Option<String> {
        let (ours, theirs) = (&answers.model, &answers.engine);
        let found = [
            first_difference("status word", 1, &theirs.status, &ours.status),
            first_difference("passed number", 1, &theirs.passed, &ours.passed),
            first_difference("cursor number", 0, &self.engine.cursors, &self.model.cursors),
            first_difference("buffer word", 0, &self.engine.buffer, &self.model.buffer),
            first_difference("area word", 0, &self.engine.area, &self.model.area),
            first_difference("root word", 0, &self.engine.root, &self.model.root),
        ];
        let found: Vec<String> = found.into_iter().flatten().collect();
        (!found.is_empty()).then(|| found.join("; "))
    }
}

fn first_difference<T>(what: &str, from: usize, engine: &[T], model: &[T]) -> Option<String>
where
    T: PartialEq + std::fmt::Display,
{
    if engine == model {
        return None;
    }
    let at = engine.iter().zip(model).position(|(engine, model)| engine != model)?;
    Some(format!("{what} {}: engine {}, model {}", at + from, engine[at], model[at]))
}

/// Works a call on the model.
pub fn work_model(state: &mut State, call: &Call) -> Answer {
    let State { root, area, cursors: numbers, buffer } = state;
    let mut cursors = read_cursors(numbers);
    let mut passed = [0; 4];
    let status = match call {
        Call::New => model::make(root, area),
        Call::Find { set, item, value } => {
            model::find(root, area, &mut cursors, *set, *item, value)
        }
        Call::Get { set, mode, record, value } => {
            let wanted = Wanted { mode: *mode, record: *record, value };
            model::get(root, area, &mut cursors, *set, wanted, buffer)
        }
        Call::Put { set, entry } => {
            let (status, lines_passed) = model::put(root, area, &mut cursors, *set, entry);
            passed = lines_passed;
            status
        }
        Call::Update { set, entry } => model::update(root, area, &cursors, *set, entry),
        Call::Delete { set } => model::delete(root, area, &cursors, *set),
    };
    write_cursors(numbers, &cursors);
    Answer { status, passed }
}

fn read_cursors(numbers: &[u32; 64]) -> Cursors {
    let mut cursors = [Cursor::default(); 16];
    for (cursor, of) in cursors.iter_mut().zip(numbers.chunks(4)) {
        *cursor = Cursor { record: of[0], path: of[1], back: of[2], forward: of[3] };
    }
    cursors
}

fn write_cursors(numbers: &mut [u32; 64], cursors: &Cursors) {
    for (of, cursor) in numbers.chunks_mut(4).zip(cursors) {
        of.copy_from_slice(&[cursor.record, cursor.path, cursor.back, cursor.forward]);
    }
}
