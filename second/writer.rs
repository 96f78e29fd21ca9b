//! From a case to its bytes, and where each field of it lies.
//! The generator and the mechanical vectors build their cases with this.

use crate::case::*;

/// Offsets of a case's fields.
pub struct Places {
    pub cells: Vec<usize>,
    pub counts: Vec<usize>,
    pub instructions: Vec<Vec<usize>>,
    pub schedule: usize,
    pub items: usize,
}

pub fn places(case: &Case) -> Places {
    let mut at = 6 + 6 * case.cells.len();
    let mut counts = Vec::new();
    let mut instructions = Vec::new();
    for program in &case.programs {
        counts.push(at);
        instructions.push((0..program.len()).map(|i| at + 1 + 7 * i).collect());
        at += 1 + 7 * program.len();
    }
    let cells = (0..case.cells.len()).map(|i| 6 + 6 * i).collect();
    Places { cells, counts, instructions, schedule: at, items: at + 2 }
}

pub fn bytes_of(case: &Case) -> Vec<u8> {
    let mut bytes = vec![1, 0, 0];
    bytes.extend([case.threads() as u8, case.cells.len() as u8, case.depth as u8]);
    for cell in &case.cells {
        bytes.extend(cell.value.to_be_bytes());
        bytes.extend([cell.owner as u8, u8::from(cell.sharing == Sharing::Shared)]);
    }
    for program in &case.programs {
        bytes.push(program.len() as u8);
        for instruction in program {
            bytes.extend(instruction_bytes(*instruction));
        }
    }
    bytes.extend((case.schedule.len() as u16).to_be_bytes());
    bytes.extend(case.schedule.iter().map(|item| item_byte(*item)));
    correct_length(&mut bytes);
    bytes
}

/// Writes the true length into bytes 1 and 2, as far as two bytes can hold it.
pub fn correct_length(bytes: &mut [u8]) {
    let length = bytes.len();
    if length >= 3 {
        bytes[1] = (length / 256 % 256) as u8;
        bytes[2] = (length % 256) as u8;
    }
}

pub fn item_byte(item: Item) -> u8 {
    match item {
        Item::Step(thread) => thread as u8,
        Item::Drain(thread) => 16 + thread as u8,
    }
}

pub fn instruction_bytes(instruction: Instruction) -> [u8; 7] {
    use Instruction::*;
    match instruction {
        Load { cell, register } => seven(1, cell, register, 0),
        StoreConstant { cell, value } => seven(2, cell, 0, value),
        StoreRegister { cell, register } => seven(3, cell, register, 0),
        Fence => seven(4, 0, 0, 0),
        CompareSwap { cell, register, value } => seven(5, cell, register, value),
        AcquireLocal { cell } => seven(6, cell, 0, 0),
        AcquireShared { cell } => seven(7, cell, 0, 0),
        Release { cell } => seven(8, cell, 0, 0),
        Branch { target, register, value } => seven(9, target, register, value),
        Add { register, value } => seven(10, 0, register, value),
    }
}

fn seven(operation: u8, second: usize, register: usize, value: i32) -> [u8; 7] {
    let [a, b, c, d] = value.to_be_bytes();
    [operation, second as u8, register as u8, a, b, c, d]
}
