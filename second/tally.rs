//! Figures over a bundle: how many cases have which answer, and how far they run.

use crate::judge::judge;
use std::collections::BTreeMap;

pub fn tally(cases: &[&[u8]]) -> String {
    let mut by_number: BTreeMap<u8, Vec<usize>> = BTreeMap::new();
    for case in cases {
        let answer = judge(case).answer;
        by_number.entry(answer.number).or_default().push(answer.place);
    }
    let bytes: usize = cases.iter().map(|case| case.len()).sum();
    let mut text = format!("cases {} bytes {bytes}\n", cases.len());
    for (number, places) in &mut by_number {
        places.sort_unstable();
        let median = places[places.len() / 2];
        let most = places[places.len() - 1];
        text.push_str(&format!(
            "answer {number}: {} cases, place: median {median}, most {most}\n",
            places.len()
        ));
    }
    text
}
