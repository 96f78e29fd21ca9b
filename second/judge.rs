//! From bytes to what is given back: read the case, then take its items one by one
//! until one is refused.

use crate::answer::{Answer, Outcome};
use crate::case::{Case, Item};
use crate::machine::Machine;
use crate::reader::read;
use crate::refusal::refusal;

/// The program looks at no byte beyond these.
pub const MOST_BYTES: usize = 65_536;

pub fn judge(bytes: &[u8]) -> Outcome {
    let seen = &bytes[..bytes.len().min(MOST_BYTES)];
    match read(seen) {
        Err(answer) => Outcome::malformed(answer),
        Ok(case) => run(&case),
    }
}

pub fn run(case: &Case) -> Outcome {
    let mut machine = Machine::new(case);
    let mut values = Vec::new();
    for &item in &case.schedule {
        if let Some(number) = refusal(&machine, item) {
            let (Item::Step(thread) | Item::Drain(thread)) = item;
            let answer = Answer { number, place: values.len(), thread };
            return Outcome { answer, values, memory: machine.memory() };
        }
        values.push(machine.take(item));
    }
    let answer = Answer { number: 0, place: values.len(), thread: 0 };
    Outcome { answer, values, memory: machine.memory() }
}
