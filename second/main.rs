//! The command line: one function for each mode, nothing else.

mod answer;
mod assemble;
mod bundle;
mod case;
mod check;
mod damage;
mod dice;
mod fuzz;
mod generate;
mod judge;
mod largest;
mod machine;
mod mechanical;
mod notation;
mod programs;
mod reader;
mod refusal;
mod schedules;
mod sentences;
mod shrink;
mod tally;
mod writer;

use std::fs;
use std::io::{self, Read, Write};
use std::process::ExitCode;

const USAGE: &str = "usage: second run <CASE | second bundle FILE | second assemble FILE [CASE]
       second pack FILE... | second check FILE... | second generate SEED COUNT
       second mechanical [check] | second tally FILE | second shrink FILE COMMAND...
       second fuzz COUNT SEED FOLDER COMMAND...";

fn main() -> ExitCode {
    let arguments: Vec<String> = std::env::args().skip(1).collect();
    match mode(&arguments) {
        Ok(code) => code,
        Err(what) => {
            eprintln!("{what}");
            ExitCode::from(2)
        }
    }
}

fn mode(arguments: &[String]) -> Result<ExitCode, String> {
    let (name, rest) = arguments.split_first().ok_or(USAGE)?;
    match (name.as_str(), rest) {
        ("run", []) => write(run_input()?.as_bytes()),
        ("bundle", [file]) => write(bundle_outputs(file)?.as_bytes()),
        ("assemble", [file]) => write(&check::one_case(file, None)?),
        ("assemble", [file, case]) => write(&check::one_case(file, Some(case))?),
        ("pack", files) if !files.is_empty() => write(&bundle::pack(&check::all_cases(files)?)),
        ("check", files) if !files.is_empty() => Ok(report(check::check(files))),
        ("generate", [seed, count]) => {
            let cases = generate::generate(notation::whole(seed)?, notation::whole(count)?);
            write(&bundle::pack(&cases))
        }
        ("mechanical", []) => write(&bundle::pack(mechanical::all().iter().map(|v| &v.bytes))),
        ("mechanical", [word]) if word == "check" => Ok(report(mechanical::check())),
        ("tally", [file]) => write(tally::tally(&bundle::unpack(&file_bytes(file)?)?).as_bytes()),
        ("shrink", [file, command @ ..]) if !command.is_empty() => {
            write(shrink::shrink(file, command)?.as_bytes())
        }
        ("fuzz", [count, seed, folder, command @ ..]) if !command.is_empty() => {
            let (count, seed) = (notation::whole(count)?, notation::whole(seed)?);
            Ok(comparison(fuzz::fuzz(count, seed, folder, command)?))
        }
        _ => Err(USAGE.into()),
    }
}

fn write(bytes: &[u8]) -> Result<ExitCode, String> {
    let mut out = io::stdout().lock();
    let written = out.write_all(bytes).and_then(|()| out.flush());
    written.map_err(|error| format!("standard output: {error}"))?;
    Ok(ExitCode::SUCCESS)
}

fn file_bytes(file: &str) -> Result<Vec<u8>, String> {
    fs::read(file).map_err(|error| format!("{file}: {error}"))
}

/// Reads no more of standard input than is judged.
fn run_input() -> Result<String, String> {
    let mut bytes = Vec::new();
    let mut input = io::stdin().lock().take(judge::MOST_BYTES as u64);
    input.read_to_end(&mut bytes).map_err(|error| format!("standard input: {error}"))?;
    Ok(judge::judge(&bytes).text())
}

fn bundle_outputs(file: &str) -> Result<String, String> {
    let bundle = file_bytes(file)?;
    let cases = bundle::unpack(&bundle)?;
    Ok(cases.iter().map(|case| judge::judge(case).text()).collect())
}

fn report((right, wrong): (usize, usize)) -> ExitCode {
    println!("{right} right, {wrong} wrong");
    if wrong == 0 {
        ExitCode::SUCCESS
    } else {
        ExitCode::FAILURE
    }
}

fn comparison((compared, differ): (usize, usize)) -> ExitCode {
    println!("{compared} compared, {differ} differ");
    if differ == 0 {
        ExitCode::SUCCESS
    } else {
        ExitCode::FAILURE
    }
}
