//! A case as it stands once its bytes are understood: cells, programs, schedule.
//! Also the sizes of 01 and the ten instructions. No bytes and no running here.

pub const MOST_THREADS: usize = 4;
pub const MOST_CELLS: usize = 32;
pub const MOST_DEPTH: usize = 8;
pub const MOST_INSTRUCTIONS: usize = 32;
pub const MOST_ITEMS: usize = 1024;
pub const REGISTERS: usize = 4;

/// Threads are numbered from 1; as an owner, 0 is nobody.
pub type ThreadNumber = usize;
pub const NOBODY: ThreadNumber = 0;

#[derive(Clone, Copy, Debug, PartialEq, Eq)]
pub enum Sharing {
    Shared,
    Local,
}

#[derive(Clone, Copy, Debug, PartialEq, Eq)]
pub struct Cell {
    pub value: i32,
    pub owner: ThreadNumber,
    pub sharing: Sharing,
}

#[derive(Clone, Copy, Debug, PartialEq, Eq)]
pub enum Instruction {
    Load { cell: usize, register: usize },
    StoreConstant { cell: usize, value: i32 },
    StoreRegister { cell: usize, register: usize },
    Fence,
    CompareSwap { cell: usize, register: usize, value: i32 },
    AcquireLocal { cell: usize },
    AcquireShared { cell: usize },
    Release { cell: usize },
    Branch { target: usize, register: usize, value: i32 },
    Add { register: usize, value: i32 },
}

#[derive(Clone, Copy, Debug, PartialEq, Eq)]
pub enum Item {
    /// The thread carries out its next instruction.
    Step(ThreadNumber),
    /// The thread's oldest pending store goes to memory.
    Drain(ThreadNumber),
}

#[derive(Clone, Debug, PartialEq, Eq)]
pub struct Case {
    pub depth: usize,
    pub cells: Vec<Cell>,
    /// One program for each thread; their number is the number of threads.
    pub programs: Vec<Vec<Instruction>>,
    pub schedule: Vec<Item>,
}

impl Case {
    pub fn threads(&self) -> usize {
        self.programs.len()
    }
}

/// The items that a case of so many threads may hold, each once.
pub fn items_for(threads: usize) -> Vec<Item> {
    let steps = (1..=threads).map(Item::Step);
    let drains = (1..=threads).map(Item::Drain);
    steps.chain(drains).collect()
}
