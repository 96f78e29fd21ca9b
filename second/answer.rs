//! What a case is answered with: number, place and thread, the two lists,
//! and the lines in which the program prints them. Nothing here decides anything.

/// Number, place and thread, as 01 has them.
#[derive(Clone, Copy, Debug, PartialEq, Eq)]
pub struct Answer {
    pub number: u8,
    pub place: usize,
    pub thread: usize,
}

impl Answer {
    /// The answer for a malformed case: its thread is always 0.
    pub fn malformed(number: u8, place: usize) -> Answer {
        Answer { number, place, thread: 0 }
    }
}

/// The answer with one value for each item taken and the cells' memory.
pub struct Outcome {
    pub answer: Answer,
    pub values: Vec<i32>,
    pub memory: Vec<i32>,
}

impl Outcome {
    /// A malformed case has an answer only.
    pub fn malformed(answer: Answer) -> Outcome {
        Outcome { answer, values: Vec::new(), memory: Vec::new() }
    }

    /// The lines that the program prints.
    pub fn text(&self) -> String {
        let Answer { number, place, thread } = self.answer;
        let mut text = format!("answer {number} at {place} thread {thread}\n");
        if number == 0 || number >= 20 {
            text.push_str(&list_line("values", &self.values));
            text.push_str(&list_line("memory", &self.memory));
        }
        text
    }
}

/// A word, then each number after one blank.
fn list_line(word: &str, numbers: &[i32]) -> String {
    let mut line = String::from(word);
    for number in numbers {
        line.push_str(&format!(" {number}"));
    }
    line.push('\n');
    line
}
