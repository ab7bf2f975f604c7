//! `replay`: calls with known answers. `rerun`: a file of calls, both answers shown.

use crate::calls::{Answer, Call, State, Step};
use crate::engine;
use crate::pair::{work_model, Pair};

/// Calls and their known answers, `NAME.txt` and `NAME.out`.
pub struct Vectors {
    name: String,
    steps: Vec<Step>,
    known: Vec<String>,
}

/// Engine or model: works a call.
type Work = fn(&mut State, &Call) -> Answer;

/// The steps of a file in the vectors' format.
pub fn read_steps(path: &str) -> Result<Vec<Step>, String> {
    let mut steps = Vec::new();
    for (index, line) in read_file(path)?.lines().enumerate() {
        let step = Step::read(line).map_err(|why| format!("{path}:{}: {why}", index + 1))?;
        steps.extend(step);
    }
    Ok(steps)
}

fn read_file(path: &str) -> Result<String, String> {
    std::fs::read_to_string(path).map_err(|why| format!("{path}: {why}"))
}

impl Vectors {
    pub fn load(path: &str) -> Result<Vectors, String> {
        let name = path.strip_suffix(".txt").ok_or_else(|| format!("{path} isn't a .txt file"))?;
        let steps = read_steps(path)?;
        let known = read_file(&format!("{name}.out"))?.lines().map(String::from).collect();
        Ok(Vectors { name: name.into(), steps, known })
    }

    /// Replays the calls on both sides against the known answers.
    pub fn replay(&self) -> bool {
        self.replay_on("engine", engine::work) && self.replay_on("model", work_model)
    }

    fn replay_on(&self, side: &str, work: Work) -> bool {
        let answers = answers_of(&self.steps, work);
        let length = answers.len().max(self.known.len());
        let Some(at) = (0..length).find(|&at| answers.get(at) != self.known.get(at)) else {
            println!("{}: {side}: {length} answers, all as known", self.name);
            return true;
        };
        let none = String::from("(nothing)");
        println!("{}.out:{}: {side} differs", self.name, at + 1);
        println!("  {side}: {}", answers.get(at).unwrap_or(&none));
        println!("  known: {}", self.known.get(at).unwrap_or(&none));
        false
    }
}

/// The lines that one side answers to the steps.
fn answers_of(steps: &[Step], work: Work) -> Vec<String> {
    let mut state = State::new();
    let mut lines = Vec::new();
    for step in steps {
        match step {
            Step::Call(call) => {
                let answer = work(&mut state, call);
                lines.push(state.line(call, &answer));
            }
            Step::ShowArea => lines.push(state.area_line()),
            step => state.prepare(step),
        }
    }
    lines
}

/// Prints both answers to each call; answers whether all are equal.
pub fn rerun(steps: &[Step]) -> bool {
    let mut pair = Pair::new();
    let mut equal = true;
    for step in steps {
        match step {
            Step::Call(call) => {
                let answers = pair.call(call);
                println!("{call}");
                println!("  engine: {}", pair.engine.line(call, &answers.engine));
                println!("  model:  {}", pair.model.line(call, &answers.model));
                if let Some(what) = pair.difference(&answers) {
                    println!("  differ: {what}");
                    equal = false;
                }
            }
            Step::ShowArea => {
                println!("  engine: {}", pair.engine.area_line());
                println!("  model:  {}", pair.model.area_line());
            }
            step => pair.prepare(step),
        }
    }
    equal
}
