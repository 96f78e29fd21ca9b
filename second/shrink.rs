//! Makes an interesting case smaller. For the mode `shrink` a case is interesting when the
//! command, with the case's file name as its last argument, ends with a status other than 0.

use crate::case::*;
use crate::reader::read;
use crate::writer::{bytes_of, correct_length};
use std::fs;
use std::process::{Command, Stdio};

pub fn shrink(file: &str, command: &[String]) -> Result<String, String> {
    let case = fs::read(file).map_err(|error| format!("{file}: {error}"))?;
    let trial = format!("{file}.try");
    let interesting = |bytes: &[u8]| is_interesting(&trial, command, bytes);
    if !interesting(&case)? {
        return Err(format!("{file}: the command ends with status 0 on it"));
    }
    let best = smallest(&case, interesting)?;
    let small = format!("{file}.small");
    fs::write(&small, &best).map_err(|error| format!("{small}: {error}"))?;
    fs::remove_file(&trial).map_err(|error| format!("{trial}: {error}"))?;
    Ok(format!("{small}: {} bytes\n", best.len()))
}

/// The smallest interesting case that steps from an interesting one lead to.
pub fn smallest(
    case: &[u8],
    interesting: impl Fn(&[u8]) -> Result<bool, String>,
) -> Result<Vec<u8>, String> {
    let mut best = case.to_vec();
    while let Some(smaller) = first_smaller(&best, &interesting)? {
        best = smaller;
    }
    Ok(best)
}

fn is_interesting(trial: &str, command: &[String], bytes: &[u8]) -> Result<bool, String> {
    fs::write(trial, bytes).map_err(|error| format!("{trial}: {error}"))?;
    let mut run = Command::new(&command[0]);
    run.args(&command[1..]).arg(trial).stdout(Stdio::null());
    let status = run.status().map_err(|error| format!("{}: {error}", command[0]))?;
    Ok(!status.success())
}

/// Fewer bytes, or as many with smaller ones.
fn size(bytes: &[u8]) -> (usize, usize) {
    (bytes.len(), bytes.iter().map(|byte| usize::from(*byte)).sum())
}

fn first_smaller(
    best: &[u8],
    interesting: impl Fn(&[u8]) -> Result<bool, String>,
) -> Result<Option<Vec<u8>>, String> {
    let trials = match read(best) {
        Ok(case) => smaller_cases(&case).iter().map(bytes_of).collect(),
        Err(_) => smaller_bytes(best),
    };
    for trial in trials {
        if size(&trial) < size(best) && interesting(&trial)? {
            return Ok(Some(trial));
        }
    }
    Ok(None)
}

/// Parts to leave out of so many: halves first, single ones last.
fn parts(length: usize) -> Vec<std::ops::Range<usize>> {
    let mut ranges = Vec::new();
    let mut width = length;
    while width > 0 {
        ranges.extend((0..length).step_by(width).map(|from| from..(from + width).min(length)));
        width /= 2;
    }
    ranges
}

fn smaller_bytes(best: &[u8]) -> Vec<Vec<u8>> {
    let mut trials = Vec::new();
    for part in parts(best.len()) {
        let mut kept = best.to_vec();
        kept.drain(part);
        let mut corrected = kept.clone();
        correct_length(&mut corrected);
        trials.extend([corrected, kept]);
    }
    trials
}

fn smaller_cases(case: &Case) -> Vec<Case> {
    let mut trials = Vec::new();
    for part in parts(case.schedule.len()) {
        let mut trial = case.clone();
        trial.schedule.drain(part);
        trials.push(trial);
    }
    for thread in 0..case.threads() {
        for index in (0..case.programs[thread].len()).rev() {
            trials.push(without_instruction(case, thread, index));
        }
    }
    trials.extend((1..=case.threads()).filter_map(|thread| without_thread(case, thread)));
    trials.extend((0..case.cells.len()).filter_map(|cell| without_cell(case, cell)));
    trials.extend((1..case.depth).map(|depth| Case { depth, ..case.clone() }));
    for cell in 0..case.cells.len() {
        let mut trial = case.clone();
        trial.cells[cell] = Cell { value: 0, owner: NOBODY, sharing: Sharing::Shared };
        trials.push(trial);
    }
    trials
}

fn without_instruction(case: &Case, thread: usize, index: usize) -> Case {
    let mut trial = case.clone();
    trial.programs[thread].remove(index);
    for instruction in &mut trial.programs[thread] {
        if let Instruction::Branch { target, .. } = instruction {
            *target -= usize::from(*target > index);
        }
    }
    trial
}

/// Leaves a thread out, with its items; later threads move up. Not if it owns a cell.
fn without_thread(case: &Case, gone: ThreadNumber) -> Option<Case> {
    let mut trial = case.clone();
    trial.programs.remove(gone - 1);
    let number = |item: &Item| match item {
        Item::Step(thread) | Item::Drain(thread) => *thread,
    };
    trial.schedule.retain(|item| number(item) != gone);
    for item in &mut trial.schedule {
        let (Item::Step(thread) | Item::Drain(thread)) = item;
        *thread -= usize::from(*thread > gone);
    }
    for cell in &mut trial.cells {
        cell.owner -= usize::from(cell.owner > gone);
    }
    let owns = case.cells.iter().any(|cell| cell.owner == gone);
    (case.threads() > 1 && !owns).then_some(trial)
}

/// Leaves a cell out that no instruction uses; later cells move up.
fn without_cell(case: &Case, gone: usize) -> Option<Case> {
    let mut trial = case.clone();
    trial.cells.remove(gone);
    let mut unused = case.cells.len() > 1;
    for instruction in trial.programs.iter_mut().flatten() {
        if let Some(cell) = cell_of(instruction) {
            unused &= *cell != gone;
            *cell -= usize::from(*cell > gone);
        }
    }
    unused.then_some(trial)
}

fn cell_of(instruction: &mut Instruction) -> Option<&mut usize> {
    use Instruction::*;
    match instruction {
        Load { cell, .. } | StoreConstant { cell, .. } | StoreRegister { cell, .. } => Some(cell),
        CompareSwap { cell, .. } | AcquireLocal { cell } | AcquireShared { cell } => Some(cell),
        Release { cell } => Some(cell),
        Fence | Branch { .. } | Add { .. } => None,
    }
}
