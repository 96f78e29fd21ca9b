//! The library from Rust, through the safe calls: R1 checked, R1 stepped, and a state out of range. `embed.c` has the rest.
//! It ends at the first difference, with a panic. Its last line is `N passed, 0 failed`.

#[path = "../include/frascolimba.rs"]
mod frascolimba;

use frascolimba::{check, step, Answer, Instruction, State, CELLS, INSTRUCTIONS, ITEMS};

const R1: [u8; 52] = [
    1, 0, 0x34, 2, 2, 1, //
    0, 0, 0, 0, 0, 1, 0, 0, 0, 0, 0, 1, //
    2, 2, 0, 0, 0, 0, 0, 1, 1, 1, 0, 0, 0, 0, 0, //
    2, 2, 1, 0, 0, 0, 0, 1, 1, 0, 0, 0, 0, 0, 0, //
    0, 2, 1, 1,
];

fn answer(number: u32, place: usize, thread: u32) -> Answer {
    Answer { place, number, thread }
}

fn store(cell: u8, value: i32) -> Instruction {
    Instruction { value, operation: 2, cell, register: 0 }
}

fn load(cell: u8) -> Instruction {
    Instruction { value: 0, operation: 1, cell, register: 0 }
}

/// The state that R1 starts.
fn r1() -> State {
    let mut s = State::smallest();
    s.threads = 2;
    s.cells = 2;
    s.sharing[1] = 1;
    s.counts = [2, 2, 0, 0];
    s.code[0] = store(0, 1);
    s.code[1] = load(1);
    s.code[INSTRUCTIONS] = store(1, 1);
    s.code[INSTRUCTIONS + 1] = load(0);
    s
}

fn main() {
    let mut passed = 0;
    let mut same = |what: &str, right: bool| {
        assert!(right, "{what}");
        passed += 1;
    };

    let (mut values, mut memory) = ([7; ITEMS], [7; CELLS]);
    same("R1", check(&R1, &mut values, &mut memory) == answer(31, 1, 1));
    same("values of R1", values[0] == 0 && values[1..].iter().all(|&v| v == 7));
    same("memory of R1", memory[..2] == [0, 0] && memory[2..].iter().all(|&v| v == 7));
    same("no bytes", check(&[], &mut [], &mut []) == answer(1, 0, 0));

    let mut s = r1();
    same("first item", step(&mut s, 1) == answer(0, 1, 0));
    same("the store waits", s.queues[0].count == 1 && s.memory[0] == 0);
    let before = s;
    same("second item", step(&mut s, 1) == answer(31, 0, 1) && s == before);
    same("no item", step(&mut s, 0) == answer(8, 0, 0) && s == before);
    s.depth = 9;
    let before = s;
    same("out of range", step(&mut s, 0) == answer(10, 0, 0) && s == before);

    println!("{passed} passed, 0 failed");
}
