//! The machine with store buffers: its state and what a taken item does to it.
//! All pending stores stand in one list in the order of issue, each with its thread;
//! a thread's buffer is what the list holds of it. Refusals are in refusal.rs.

use crate::case::*;

#[derive(Clone, Copy, Debug, PartialEq, Eq)]
pub struct Pending {
    pub thread: ThreadNumber,
    pub cell: usize,
    pub value: i32,
}

#[derive(Clone, Debug)]
pub struct Thread {
    pub program: Vec<Instruction>,
    pub position: usize,
    pub registers: [i32; REGISTERS],
    /// The dirty flag.
    pub flag: bool,
}

#[derive(Clone, Debug)]
pub struct Machine {
    pub depth: usize,
    pub cells: Vec<Cell>,
    pub threads: Vec<Thread>,
    pub pending: Vec<Pending>,
}

impl Machine {
    pub fn new(case: &Case) -> Machine {
        let fresh = |program: &Vec<Instruction>| Thread {
            program: program.clone(),
            position: 0,
            registers: [0; REGISTERS],
            flag: false,
        };
        Machine {
            depth: case.depth,
            cells: case.cells.clone(),
            threads: case.programs.iter().map(fresh).collect(),
            pending: Vec::new(),
        }
    }

    pub fn thread(&self, thread: ThreadNumber) -> &Thread {
        &self.threads[thread - 1]
    }

    pub fn thread_mut(&mut self, thread: ThreadNumber) -> &mut Thread {
        &mut self.threads[thread - 1]
    }

    /// The instruction that the thread would carry out, if it is not at its end.
    pub fn next(&self, thread: ThreadNumber) -> Option<Instruction> {
        let thread = self.thread(thread);
        thread.program.get(thread.position).copied()
    }

    /// How many stores the thread has pending.
    pub fn pending_of(&self, thread: ThreadNumber) -> usize {
        self.pending.iter().filter(|store| store.thread == thread).count()
    }

    pub fn memory(&self) -> Vec<i32> {
        self.cells.iter().map(|cell| cell.value).collect()
    }

    /// Takes an item that is not refused, and gives its element of the value list.
    pub fn take(&mut self, item: Item) -> i32 {
        match item {
            Item::Drain(thread) => {
                self.drain(thread);
                0
            }
            Item::Step(thread) => self.step(thread),
        }
    }

    fn drain(&mut self, thread: ThreadNumber) {
        let oldest = self.pending.iter().position(|store| store.thread == thread);
        let store = self.pending.remove(oldest.expect("an empty buffer is refused"));
        self.cells[store.cell].value = store.value;
    }

    fn step(&mut self, thread: ThreadNumber) -> i32 {
        let next = self.next(thread).expect("a program at its end is refused");
        self.thread_mut(thread).position += 1;
        match next {
            Instruction::Load { cell, register } => self.load(thread, cell, register),
            Instruction::CompareSwap { cell, register, value } => {
                self.compare_swap(thread, cell, register, value)
            }
            other => {
                self.silent(thread, other);
                0
            }
        }
    }

    /// The instructions that read no cell.
    fn silent(&mut self, thread: ThreadNumber, instruction: Instruction) {
        use Instruction::*;
        let registers = self.thread(thread).registers;
        match instruction {
            StoreConstant { cell, value } => self.store(thread, cell, value),
            StoreRegister { cell, register } => self.store(thread, cell, registers[register]),
            Fence => self.thread_mut(thread).flag = false,
            AcquireLocal { cell } => self.hand(cell, thread, Sharing::Local),
            AcquireShared { cell } => self.hand(cell, thread, Sharing::Shared),
            Release { cell } => self.hand(cell, NOBODY, Sharing::Shared),
            Branch { target, register, value } => {
                if registers[register] == value {
                    self.thread_mut(thread).position = target;
                }
            }
            Add { register, value } => {
                let sum = registers[register].wrapping_add(value);
                self.thread_mut(thread).registers[register] = sum;
            }
            Load { .. } | CompareSwap { .. } => unreachable!("these read a cell"),
        }
    }

    fn load(&mut self, thread: ThreadNumber, cell: usize, register: usize) -> i32 {
        let mine = |store: &&Pending| store.thread == thread && store.cell == cell;
        let newest = self.pending.iter().rev().find(mine);
        let value = newest.map_or(self.cells[cell].value, |store| store.value);
        self.thread_mut(thread).registers[register] = value;
        value
    }

    fn store(&mut self, thread: ThreadNumber, cell: usize, value: i32) {
        self.pending.push(Pending { thread, cell, value });
        let Cell { owner, sharing, .. } = self.cells[cell];
        if !(owner == thread && sharing == Sharing::Local) {
            self.thread_mut(thread).flag = true;
        }
    }

    fn compare_swap(
        &mut self,
        thread: ThreadNumber,
        cell: usize,
        register: usize,
        value: i32,
    ) -> i32 {
        let read = self.cells[cell].value;
        let worker = self.thread_mut(thread);
        let equal = worker.registers[register] == read;
        worker.registers[register] = read;
        worker.flag = false;
        if equal {
            self.cells[cell].value = value;
        }
        read
    }

    fn hand(&mut self, cell: usize, owner: ThreadNumber, sharing: Sharing) {
        self.cells[cell].owner = owner;
        self.cells[cell].sharing = sharing;
    }
}
