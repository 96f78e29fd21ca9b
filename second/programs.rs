//! Random cases without a schedule: sizes, cells with their owners, and for each thread
//! a program of sentences (sentences.rs).

use crate::case::*;
use crate::dice::Dice;
use crate::sentences::{program, Habits, Role};
use Instruction::*;

pub fn random_case(dice: &mut Dice) -> Case {
    let threads = dice.pick(&[1, 2, 2, 3, 3, 4, 4]);
    let depth = dice.between(1, MOST_DEPTH);
    let cell_count = match dice.below(10) {
        0 => MOST_CELLS,
        1 => 1,
        2..=3 => dice.between(1, MOST_CELLS),
        _ => dice.between(2, 10),
    };
    let roles: Vec<Role> = (0..cell_count).map(|_| random_role(dice, threads)).collect();
    let cells = roles.iter().map(|role| fresh_cell(dice, *role)).collect();
    let wild = dice.pick(&[0, 0, 0, 0, 2, 10, 50]);
    let fenced = dice.pick(&[100, 100, 100, 90, 60]);
    let habits = Habits { wild, fenced };
    let programs = (1..=threads).map(|thread| program(dice, &roles, thread, habits)).collect();
    Case { depth, cells, programs, schedule: Vec::new() }
}

fn random_role(dice: &mut Dice, threads: usize) -> Role {
    match dice.below(10) {
        0..=3 => Role::Open,
        4..=5 => Role::Passed,
        6..=7 => Role::Kept(dice.between(1, threads), Sharing::Local),
        _ => Role::Kept(dice.between(1, threads), Sharing::Shared),
    }
}

fn fresh_cell(dice: &mut Dice, role: Role) -> Cell {
    let value = dice.value();
    match role {
        Role::Kept(owner, sharing) => Cell { value, owner, sharing },
        _ => Cell { value, owner: NOBODY, sharing: Sharing::Shared },
    }
}

/// Any instruction that a case of these sizes could hold.
pub fn any_instruction(dice: &mut Dice, cells: usize, count: usize) -> Instruction {
    let cell = dice.below(cells);
    let register = dice.below(REGISTERS);
    let value = dice.value();
    match dice.below(10) {
        0 => Load { cell, register },
        1 => StoreConstant { cell, value },
        2 => StoreRegister { cell, register },
        3 => Fence,
        4 => CompareSwap { cell, register, value },
        5 => AcquireLocal { cell },
        6 => AcquireShared { cell },
        7 => Release { cell },
        8 => Branch { target: dice.between(0, count), register, value },
        _ => Add { register, value },
    }
}
