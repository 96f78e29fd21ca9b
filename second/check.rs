//! Text vectors: read from files, put into a bundle, or held against the outputs
//! that the texts themselves state.

use crate::assemble::assemble;
use crate::judge::judge;
use crate::notation::{parse, CasePart, Family};
use std::fs;

pub fn family_of(file: &str) -> Result<Family, String> {
    let text = fs::read_to_string(file).map_err(|error| format!("{file}: {error}"))?;
    parse(&text).map_err(|what| format!("{file}: {what}"))
}

/// The bytes of the case so named; without a name the file must hold one case only.
pub fn one_case(file: &str, name: Option<&String>) -> Result<Vec<u8>, String> {
    let family = family_of(file)?;
    let wanted = |case: &&CasePart| name.is_none_or(|name| *name == case.name);
    let found: Vec<&CasePart> = family.cases.iter().filter(wanted).collect();
    match found.as_slice() {
        [case] => assemble(&family, case).map_err(|what| format!("{file}: {what}")),
        _ => {
            let names: Vec<&str> = family.cases.iter().map(|case| case.name.as_str()).collect();
            Err(format!("{file}: name one case of: {}", names.join(", ")))
        }
    }
}

/// The bytes of all cases of all files, in order.
pub fn all_cases(files: &[String]) -> Result<Vec<Vec<u8>>, String> {
    let mut cases = Vec::new();
    for file in files {
        let family = family_of(file)?;
        for case in &family.cases {
            cases.push(assemble(&family, case).map_err(|what| format!("{file}: {what}"))?);
        }
    }
    Ok(cases)
}

/// Holds every case of the files against its stated output; gives right and wrong.
pub fn check(files: &[String]) -> (usize, usize) {
    let (mut right, mut wrong) = (0, 0);
    for file in files {
        let family = match family_of(file) {
            Ok(family) => family,
            Err(what) => {
                println!("{what}");
                wrong += 1;
                continue;
            }
        };
        for case in &family.cases {
            match difference(&family, case) {
                None => right += 1,
                Some(what) => {
                    println!("{file}: case {}: {what}", case.name);
                    wrong += 1;
                }
            }
        }
    }
    (right, wrong)
}

fn difference(family: &Family, case: &CasePart) -> Option<String> {
    let bytes = match assemble(family, case) {
        Ok(bytes) => bytes,
        Err(what) => return Some(what),
    };
    let expected = case.expected.join("\n") + "\n";
    let given = judge(&bytes).text();
    let one_line = |text: &str| text.trim_end().replace('\n', " | ");
    (given != expected)
        .then(|| format!("expected `{}`, given `{}`", one_line(&expected), one_line(&given)))
}
