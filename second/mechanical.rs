//! Vectors made by rule instead of by hand: every byte set, every cut, the largest case
//! with an error late in it, and the longest inputs. Where the rule itself says what must
//! come out, that is stated and checked.

use crate::case::*;
use crate::judge::judge;
use crate::largest::{ending_with, endings};
use crate::notation::hex;
use crate::writer::{bytes_of, correct_length, places};

pub struct Vector {
    pub name: String,
    pub bytes: Vec<u8>,
    /// Number and place, where the rule says them.
    pub stated: Option<(u8, usize)>,
}

/// R1 as 01 prints it.
const R1: &str = "01 0034 020201 000000000001 000000000001
    02 02000000000001 01010000000000 02 02010000000001 01000000000000 0002 0101";

/// Every operation once, for two threads, three cells and depth 3; taken whole.
const ALL_OPERATIONS: &str = "01 0076 020303 FFFFFFD80001 000000050100 7FFFFFFF0201
    07 02000000000007 04000000000000 01000100000000 0A00017FFFFFFF 03010100000000
    09060300000000 01020000000000
    04 05000180000000 06000000000000 08000000000000 07000000000000
    000D 01 11 01 01 01 01 01 01 11 02 02 02 02";

pub fn all() -> Vec<Vector> {
    let mut vectors = Vec::new();
    for (name, digits, stated) in [("R1", R1, (31, 1)), ("all operations", ALL_OPERATIONS, (0, 13))]
    {
        let base = hex(digits).expect("hexadecimal");
        vectors.push(Vector { name: name.into(), bytes: base.clone(), stated: Some(stated) });
        set_bytes(name, &base, &mut vectors);
        cuts(name, &base, &mut vectors);
    }
    late_stops(&mut vectors);
    late_errors(&mut vectors);
    long_inputs(&mut vectors);
    vectors
}

/// Holds every stated answer; prints the differences; gives right and wrong.
pub fn check() -> (usize, usize) {
    let (mut right, mut wrong) = (0, 0);
    for vector in all() {
        let Some(stated) = vector.stated else { continue };
        let answer = judge(&vector.bytes).answer;
        if (answer.number, answer.place) == stated {
            right += 1;
        } else {
            println!("{}: stated {stated:?}, given {answer:?}", vector.name);
            wrong += 1;
        }
    }
    (right, wrong)
}

/// Every byte set in turn to five values.
fn set_bytes(name: &str, base: &[u8], vectors: &mut Vec<Vector>) {
    for at in 0..base.len() {
        for byte in [0, 1, 127, 128, 255] {
            let mut bytes = base.to_vec();
            bytes[at] = byte;
            let stated = match at {
                0 if byte != 1 => Some((2, 0)),
                1 | 2 if byte != base[at] => Some((3, 1)),
                _ => None,
            };
            vectors.push(Vector { name: format!("{name}, byte {at} is {byte}"), bytes, stated });
        }
    }
}

/// Every shorter length, the length field kept and corrected.
fn cuts(name: &str, base: &[u8], vectors: &mut Vec<Vector>) {
    for length in 0..base.len() {
        let kept = base[..length].to_vec();
        let mut corrected = kept.clone();
        correct_length(&mut corrected);
        let stated = if length < 3 { Some((1, 0)) } else { Some((3, 1)) };
        vectors.push(Vector { name: format!("{name}, cut to {length}"), bytes: kept, stated });
        if length >= 3 {
            let name = format!("{name}, cut to {length}, corrected");
            vectors.push(Vector { name, bytes: corrected, stated: None });
        }
    }
}

/// The largest case taken whole, and refused at its last item with each number.
fn late_stops(vectors: &mut Vec<Vector>) {
    for ending in endings() {
        let taken = if ending.number == 0 { MOST_ITEMS } else { MOST_ITEMS - 1 };
        vectors.push(Vector {
            name: format!("largest, ending with {}", ending.number),
            bytes: bytes_of(&ending_with(&ending)),
            stated: Some((ending.number, taken)),
        });
    }
}

/// The largest case with one field late in it made wrong.
fn late_errors(vectors: &mut Vec<Vector>) {
    let case = ending_with(&endings()[0]);
    let base = bytes_of(&case);
    let at = places(&case);
    let mut add = |name: &str, number: u8, place: usize, change: &dyn Fn(&mut Vec<u8>)| {
        let mut bytes = base.clone();
        change(&mut bytes);
        correct_length(&mut bytes);
        let name = format!("largest, {name}");
        vectors.push(Vector { name, bytes, stated: Some((number, place)) });
    };
    let (cell, count, schedule) = (at.cells[31], at.counts[3], at.schedule);
    let last = at.instructions[3][31];
    let item = at.items + MOST_ITEMS - 1;
    add("owner of the last cell", 6, cell + 4, &|b| b[cell + 4] = 5);
    add("sharing of the last cell", 6, cell + 5, &|b| b[cell + 5] = 2);
    add("last cell unowned and local", 6, cell + 5, &|b| b[cell + 5] = 0);
    add("last count too large", 4, count, &|b| b[count] = 33);
    add("last operation 0", 7, last, &|b| b[last] = 0);
    add("last operation 11", 7, last, &|b| b[last] = 11);
    add("last fence with a cell", 7, last + 1, &|b| b[last + 1] = 1);
    add("last fence with a register", 7, last + 2, &|b| b[last + 2] = 1);
    add("last fence with a value", 7, last + 3, &|b| b[last + 6] = 1);
    add("last load's cell", 7, last + 1, &|b| b[last..last + 2].copy_from_slice(&[1, 32]));
    add("last load's register", 7, last + 2, &|b| b[last..last + 3].copy_from_slice(&[1, 31, 4]));
    add("last branch's target", 7, last + 1, &|b| b[last..last + 2].copy_from_slice(&[9, 33]));
    // The last fence, 04 00 and five zeros, is then read as 1,024 items from 0 on.
    add("last count one less", 8, last + 2, &|b| b[count] = 31);
    add("schedule count 1,025", 4, schedule, &|b| b[schedule + 1] = 1);
    add("schedule count 1,023", 5, item, &|b| b[schedule..schedule + 2].copy_from_slice(&[3, 255]));
    add("last item missing", 5, item, &|b| b.truncate(item));
    add("one byte left over", 5, item + 1, &|b| b.push(1));
    add("last instruction cut", 5, last, &|b| b.truncate(last + 6));
    add("schedule count cut", 5, schedule, &|b| b.truncate(schedule + 1));
    for byte in [0, 5, 16, 21, 255] {
        add(&format!("last item {byte}"), 8, item, &|b| b[item] = byte);
    }
}

/// Inputs about as long as the program looks at, and as a length field can name.
fn long_inputs(vectors: &mut Vec<Vector>) {
    let smallest = hex("01 000F 010101 000000000001 00 0000").expect("hexadecimal");
    let mut add = |name: &str, length: usize, field: Option<[u8; 2]>, stated: (u8, usize)| {
        let mut bytes = smallest.clone();
        bytes.resize(length, 0);
        if let Some(field) = field {
            bytes[1..3].copy_from_slice(&field);
        }
        vectors.push(Vector { name: name.into(), bytes, stated: Some(stated) });
    };
    add("the smallest", 15, None, (0, 0));
    add("the largest length, rightly named", 65_535, Some([255, 255]), (5, 15));
    add("65,536 bytes, named 0", 65_536, Some([0, 0]), (3, 1));
    add("65,536 bytes, named 65,535", 65_536, Some([255, 255]), (3, 1));
    add("65,537 bytes, named 1", 65_537, Some([0, 1]), (3, 1));
    add("65,551 bytes, named 15", 65_551, None, (3, 1));
    vectors.push(Vector {
        name: "65,536 zeros".into(),
        bytes: vec![0; 65_536],
        stated: Some((2, 0)),
    });
}
