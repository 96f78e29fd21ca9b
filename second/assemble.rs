//! From a family and one of its cases to the case's bytes. Nothing is judged: counts,
//! owners and the rest are written as the text says, also where a reader will refuse them.

use crate::case::Instruction;
use crate::notation::{hex, whole, CasePart, CodeLine, Edit, Family, ThreadPart};
use crate::writer::{correct_length, instruction_bytes};

pub fn assemble(family: &Family, case: &CasePart) -> Result<Vec<u8>, String> {
    let mut bytes = match &case.bytes {
        Some(bytes) => bytes.clone(),
        None => from_program(family, case)?,
    };
    for edit in &case.edits {
        apply(edit, &mut bytes)?;
    }
    Ok(bytes)
}

fn from_program(family: &Family, case: &CasePart) -> Result<Vec<u8>, String> {
    let mut bytes = vec![1, 0, 0];
    bytes.push(family.thread_count.unwrap_or(family.threads.len() as u8));
    bytes.push(family.cell_count.unwrap_or(family.cells.len() as u8));
    bytes.push(family.depth);
    for cell in &family.cells {
        bytes.extend(cell.value.to_be_bytes());
        bytes.extend([cell.owner, cell.sharing]);
    }
    for thread in &family.threads {
        bytes.push(thread.count.unwrap_or(thread.code.len() as u8));
        for line in &thread.code {
            let code = code_bytes(family, thread, line);
            bytes.extend(code.map_err(|what| format!("line {}: {what}", line.number))?);
        }
    }
    let count = case.item_count.unwrap_or(case.schedule.len() as u16);
    bytes.extend(count.to_be_bytes());
    bytes.extend(&case.schedule);
    correct_length(&mut bytes);
    Ok(bytes)
}

fn code_bytes(family: &Family, thread: &ThreadPart, line: &CodeLine) -> Result<Vec<u8>, String> {
    let words: Vec<&str> = line.words.iter().map(String::as_str).collect();
    if let ["raw", digits @ ..] = words.as_slice() {
        return hex(&digits.concat());
    }
    let instruction = instruction(family, thread, &words)?;
    Ok(instruction_bytes(instruction).to_vec())
}

fn instruction(
    family: &Family,
    thread: &ThreadPart,
    words: &[&str],
) -> Result<Instruction, String> {
    use Instruction::*;
    let cell = |word: &str| cell_number(family, word);
    Ok(match words {
        ["load", c, r] => Load { cell: cell(c)?, register: register(r)? },
        ["store", c, v] if v.starts_with('r') => {
            StoreRegister { cell: cell(c)?, register: register(v)? }
        }
        ["store", c, v] => StoreConstant { cell: cell(c)?, value: whole(v)? },
        ["fence"] => Fence,
        ["swap", c, r, v] => {
            CompareSwap { cell: cell(c)?, register: register(r)?, value: whole(v)? }
        }
        ["acquire-local", c] => AcquireLocal { cell: cell(c)? },
        ["acquire-shared", c] => AcquireShared { cell: cell(c)? },
        ["release", c] => Release { cell: cell(c)? },
        ["branch", r, v, to] => {
            Branch { target: target(thread, to)?, register: register(r)?, value: whole(v)? }
        }
        ["add", r, v] => Add { register: register(r)?, value: whole(v)? },
        _ => return Err(format!("unknown instruction {}", words.join(" "))),
    })
}

fn cell_number(family: &Family, word: &str) -> Result<usize, String> {
    let known = family.cells.iter().position(|cell| cell.name == word);
    known.ok_or(format!("no cell {word}"))
}

fn register(word: &str) -> Result<usize, String> {
    match word {
        "r0" => Ok(0),
        "r1" => Ok(1),
        "r2" => Ok(2),
        "r3" => Ok(3),
        _ => Err(format!("no register {word}")),
    }
}

/// A label of the thread, or `end`.
fn target(thread: &ThreadPart, word: &str) -> Result<usize, String> {
    let known = thread.labels.iter().find(|(label, _)| label == word);
    match known {
        Some((_, position)) => Ok(*position),
        None if word == "end" => Ok(thread.code.len()),
        None => Err(format!("no label {word}")),
    }
}

fn apply(edit: &Edit, bytes: &mut Vec<u8>) -> Result<(), String> {
    match edit {
        Edit::Set(at, new) => {
            let place = bytes.get_mut(*at..*at + new.len());
            place.ok_or(format!("set {at}: outside the case"))?.copy_from_slice(new);
        }
        Edit::Cut(length) if *length > bytes.len() => {
            return Err(format!("cut {length}: the case has {} bytes", bytes.len()));
        }
        Edit::Cut(length) => bytes.truncate(*length),
        Edit::Append(more) => bytes.extend(more),
        Edit::Pad(length) if *length < bytes.len() => {
            return Err(format!("pad {length}: the case has {} bytes", bytes.len()));
        }
        Edit::Pad(length) => bytes.resize(*length, 0),
        Edit::Relength => correct_length(bytes),
    }
    Ok(())
}
