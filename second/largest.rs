//! The largest case, 2,124 bytes: 4 threads, 32 cells, 32 instructions each, 1,024 items.
//! Threads 1 and 2 loop; thread 3 can store to cell 20; thread 4 carries a script, so
//! that the last item of all can be refused with any number from 20 up.

use crate::case::*;
use crate::machine::Machine;
use crate::refusal::refusal;
use Instruction::*;

pub const DEPTH: usize = 8;

/// Cells 0 to 7 are open; 7 + t is local to thread t; 11 + t is its own and shared;
/// 16 and up are open again, -40 in each.
fn cells() -> Vec<Cell> {
    let cell = |index: usize| match index {
        8..=11 => Cell { value: 5, owner: index - 7, sharing: Sharing::Local },
        12..=15 => Cell { value: 6, owner: index - 11, sharing: Sharing::Shared },
        16.. => Cell { value: -40, owner: NOBODY, sharing: Sharing::Shared },
        _ => Cell { value: 0, owner: NOBODY, sharing: Sharing::Shared },
    };
    (0..MOST_CELLS).map(cell).collect()
}

/// Thirty instructions, a fence, and a branch to the beginning.
fn looping(thread: ThreadNumber) -> Vec<Instruction> {
    let (local, shared, passed) = (7 + thread, 11 + thread, 20 + thread);
    let round = |step: i32, cold: i32| {
        vec![
            StoreConstant { cell: local, value: cold },
            Load { cell: local, register: 0 },
            Add { register: 0, value: i32::MAX },
            StoreRegister { cell: local, register: 0 },
            StoreConstant { cell: thread, value: step },
            Fence,
            Load { cell: 3 - thread, register: 1 },
            CompareSwap { cell: 5, register: 1, value: step },
            AcquireLocal { cell: passed },
            StoreRegister { cell: passed, register: 1 },
            Load { cell: passed, register: 2 },
            Fence,
            Release { cell: passed },
            StoreRegister { cell: shared, register: 2 },
            Load { cell: shared, register: 2 },
        ]
    };
    let mut program = round(1, -40);
    program.extend(round(i32::MIN, i32::MAX));
    program.push(Fence);
    program.push(Branch { target: 0, register: 3, value: 0 });
    program
}

/// A script for thread 4 and the items that end the schedule with its refusal.
pub struct Ending {
    pub number: u8,
    pub script: Vec<Instruction>,
    pub items: Vec<Item>,
}

/// The case whose 1,024 items end so; what comes before is taken.
pub fn ending_with(ending: &Ending) -> Case {
    let mut script = ending.script.clone();
    script.resize(MOST_INSTRUCTIONS, Fence);
    let mut storing = vec![StoreConstant { cell: 20, value: i32::MIN }];
    storing.resize(MOST_INSTRUCTIONS, Add { register: 3, value: -40 });
    let programs = vec![looping(1), looping(2), storing, script];
    let mut case = Case { depth: DEPTH, cells: cells(), programs, schedule: Vec::new() };
    case.schedule = turn_about(&case, MOST_ITEMS - ending.items.len());
    case.schedule.extend(&ending.items);
    case
}

/// Threads 1 and 2 in turn: a step where it is taken, else a drain.
fn turn_about(case: &Case, wanted: usize) -> Vec<Item> {
    let mut machine = Machine::new(case);
    let mut schedule = Vec::new();
    while schedule.len() < wanted {
        let thread = 1 + schedule.len() % 2;
        let step = Item::Step(thread);
        let item = match refusal(&machine, step) {
            None => step,
            Some(_) => Item::Drain(thread),
        };
        assert_eq!(refusal(&machine, item), None, "the loops of the largest case are legal");
        machine.take(item);
        schedule.push(item);
    }
    schedule
}

/// One ending for each number from 20 up, and one that is taken whole.
pub fn endings() -> Vec<Ending> {
    let four = Item::Step(4);
    let store = |cell| StoreConstant { cell, value: -40 };
    let ending = |number, script: &[Instruction], items: &[Item]| Ending {
        number,
        script: script.to_vec(),
        items: items.to_vec(),
    };
    vec![
        ending(0, &[store(15), Load { cell: 15, register: 0 }], &[four, four]),
        ending(20, &[Branch { target: 32, register: 0, value: 0 }], &[four, four]),
        ending(21, &[store(15), Fence], &[four, four]),
        ending(22, &[store(11); 9], &[four; 9]),
        ending(23, &[], &[Item::Drain(4)]),
        ending(30, &[Load { cell: 8, register: 0 }], &[four]),
        ending(31, &[store(15), Load { cell: 31, register: 0 }], &[four, four]),
        ending(32, &[store(12)], &[four]),
        ending(33, &[AcquireShared { cell: 12 }], &[four]),
        ending(34, &[AcquireLocal { cell: 20 }], &[Item::Step(3), four]),
        ending(35, &[Release { cell: 31 }], &[four]),
        ending(36, &[store(11), Release { cell: 11 }], &[four, four]),
    ]
}
