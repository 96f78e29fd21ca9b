//! Holds another program to this one on random cases, and keeps and shrinks those on
//! which the two differ.

use crate::bundle::pack;
use crate::dice::Dice;
use crate::generate::one;
use crate::judge::judge;
use crate::shrink::smallest;
use std::fs;
use std::io::Write;
use std::process::{Command, Stdio};
use std::thread;

/// Cases that the other program gets at once.
const AT_ONCE: usize = 10_000;

/// Every case that differs is kept. A fault that is in all of them needs no more small ones
/// than these to be found.
const MOST_SHRUNK: usize = 10;

/// A command that reads a bundle and prints a report for each case.
struct Other<'a>(&'a [String]);

/// Gives how many cases were compared and how many differ. Ends early where some differ.
pub fn fuzz(
    count: usize,
    seed: u64,
    folder: &str,
    command: &[String],
) -> Result<(usize, usize), String> {
    let other = Other(command);
    if !other.says(&[])?.is_empty() {
        return Err(format!("{}: it reports on a bundle without cases", command[0]));
    }
    let mut dice = Dice::new(seed);
    let mut compared = 0;
    while compared < count {
        let cases: Vec<Vec<u8>> =
            (0..AT_ONCE.min(count - compared)).map(|_| one(&mut dice)).collect();
        let differing = differing(&cases, &other.says(&cases)?);
        for (nth, &index) in differing.iter().enumerate() {
            let file = format!("{folder}/{seed}-{}.case", compared + index);
            write(&file, &cases[index])?;
            if nth < MOST_SHRUNK {
                shrink(&file, &cases[index], &other)?;
            }
        }
        compared += cases.len();
        if !differing.is_empty() {
            println!("{} cases are kept: {folder}/{seed}-*.case", differing.len());
            return Ok((compared, differing.len()));
        }
    }
    Ok((compared, 0))
}

impl Other<'_> {
    fn says(&self, cases: &[Vec<u8>]) -> Result<String, String> {
        let bundle = pack(cases);
        let failed = |error: std::io::Error| format!("{}: {error}", self.0[0]);
        let mut run = Command::new(&self.0[0]);
        run.args(&self.0[1..]).stdin(Stdio::piped()).stdout(Stdio::piped());
        let mut child = run.spawn().map_err(failed)?;
        let mut input = child.stdin.take().ok_or("no standard input")?;
        // It may end before it has read all; what it says then shows that.
        let feeder = thread::spawn(move || input.write_all(&bundle).is_ok());
        let output = child.wait_with_output().map_err(failed)?;
        feeder.join().map_err(|_| "the bundle could not be handed over")?;
        if cases.is_empty() && !output.status.success() {
            return Err(format!("{}: it ends with {}", self.0[0], output.status));
        }
        Ok(String::from_utf8_lossy(&output.stdout).into_owned())
    }
}

/// The places of the cases for which the reports do not hold what this program says.
fn differing(cases: &[Vec<u8>], said: &str) -> Vec<usize> {
    let reports = split(said, cases.len());
    let differs = |index: &usize| {
        reports.get(*index).is_none_or(|report| *report != judge(&cases[*index]).text())
    };
    (0..cases.len()).filter(differs).collect()
}

/// No more than so many reports: the first from the front on, each other one from the next
/// word `answer` on, the last to the end.
fn split(said: &str, most: usize) -> Vec<&str> {
    let words = said.match_indices("answer ").map(|(at, _)| at).filter(|at| *at > 0);
    let mut places: Vec<usize> = std::iter::once(0).chain(words).take(most).collect();
    places.push(said.len());
    places.windows(2).map(|pair| &said[pair[0]..pair[1]]).collect()
}

fn write(name: &str, bytes: &[u8]) -> Result<(), String> {
    fs::write(name, bytes).map_err(|error| format!("{name}: {error}"))
}

/// Writes the smallest case found that still differs, and what each program says of it.
fn shrink(file: &str, case: &[u8], other: &Other) -> Result<(), String> {
    let alone = |bytes: &[u8]| -> Result<String, String> { other.says(&[bytes.to_vec()]) };
    let differs = |bytes: &[u8]| Ok(alone(bytes)? != judge(bytes).text());
    if !differs(case)? {
        println!("{file}: differs behind the cases before it, and not alone");
        return Ok(());
    }
    let small = smallest(case, differs)?;
    let said =
        format!("second program:\n{}other program:\n{}", judge(&small).text(), alone(&small)?);
    write(&format!("{file}.small"), &small)?;
    write(&format!("{file}.said"), said.as_bytes())?;
    println!("{file}.small: {} bytes\n{said}", small.len());
    Ok(())
}
