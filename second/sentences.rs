//! Random programs, made of sentences: short runs of instructions that are legal by
//! themselves (store, fence, load; acquire, work, fence, release; ...), so that long
//! schedules are taken. A share of wild instructions breaks the rules.

use crate::case::*;
use crate::dice::Dice;
use crate::programs::any_instruction;
use Instruction::*;

/// What the programs of a case use a cell for.
#[derive(Clone, Copy, PartialEq)]
pub enum Role {
    /// Unowned, stored to and loaded by all.
    Open,
    /// Unowned, only touched between ACQUIRE and RELEASE.
    Passed,
    /// Owned from the start.
    Kept(ThreadNumber, Sharing),
}

/// This register stays 0 in tame programs, for branches that always go.
const ZERO: usize = 3;

/// How the programs of a case are written.
#[derive(Clone, Copy)]
pub struct Habits {
    /// Percent of wild sentences.
    pub wild: usize,
    /// Percent of fences that are there where the discipline wants one.
    pub fenced: usize,
}

/// A program for the thread.
pub fn program(
    dice: &mut Dice,
    roles: &[Role],
    thread: ThreadNumber,
    habits: Habits,
) -> Vec<Instruction> {
    let mut author = Author { dice, roles, thread, habits, starts: vec![0], program: vec![] };
    author.write();
    author.program
}

/// Writes one thread's program.
struct Author<'a> {
    dice: &'a mut Dice,
    roles: &'a [Role],
    thread: ThreadNumber,
    habits: Habits,
    /// Where the sentences begin.
    starts: Vec<usize>,
    program: Vec<Instruction>,
}

impl Author<'_> {
    fn write(&mut self) {
        let length = match self.dice.below(20) {
            0 => 0,
            1..=3 => MOST_INSTRUCTIONS,
            4..=8 => self.dice.between(1, 8),
            _ => self.dice.between(6, MOST_INSTRUCTIONS),
        };
        let looping = length >= 3 && self.dice.chance(80);
        let body = if looping { length - 2 } else { length };
        while self.program.len() < body {
            self.sentence_within(body);
        }
        if looping {
            self.program.push(Fence);
            let start = self.dice.pick(&self.starts[..self.starts.len().min(3)]);
            self.program.push(Branch { target: start, register: ZERO, value: 0 });
        }
        for instruction in &mut self.program {
            if let Branch { target, .. } = instruction {
                *target = (*target).min(length);
            }
        }
    }

    /// A sentence that would be cut short gives way to sums.
    fn sentence_within(&mut self, body: usize) {
        let start = self.program.len();
        self.sentence();
        if self.program.len() > body {
            self.program.truncate(start);
            let register = self.register();
            let value = self.dice.value();
            self.program.resize(body, Add { register, value });
        }
        self.starts.push(self.program.len());
    }

    fn sentence(&mut self) {
        if self.dice.chance(self.habits.wild) {
            let any = any_instruction(self.dice, self.roles.len(), MOST_INSTRUCTIONS);
            return self.program.push(any);
        }
        match self.dice.below(100) {
            0..=24 => self.publish(),
            25..=39 => self.look(),
            40..=59 => self.own_work(),
            60..=69 => self.swap(),
            70..=84 => self.borrow(),
            _ => self.count(),
        }
    }

    fn register(&mut self) -> usize {
        self.dice.below(ZERO)
    }

    /// Some cell of which the question holds, if there is one.
    fn cell(&mut self, wanted: impl Fn(Role) -> bool) -> Option<usize> {
        let fitting: Vec<usize> =
            (0..self.roles.len()).filter(|c| wanted(self.roles[*c])).collect();
        (!fitting.is_empty()).then(|| self.dice.pick(&fitting))
    }

    fn push_store(&mut self, cell: usize) {
        let register = self.register();
        let value = self.dice.value();
        let store = match self.dice.chance(50) {
            true => StoreConstant { cell, value },
            false => StoreRegister { cell, register },
        };
        self.program.push(store);
    }

    fn push_load(&mut self, cell: usize) {
        let register = self.register();
        self.program.push(Load { cell, register });
    }

    /// A load of a shared cell wants a clear flag, a RELEASE an empty buffer. A
    /// COMPARE-SWAP serves as well as a FENCE.
    fn push_fence(&mut self) {
        if !self.dice.chance(self.habits.fenced) {
            return;
        }
        match self.cell(|role| role == Role::Open) {
            Some(cell) if self.dice.chance(25) => {
                let (register, value) = (self.register(), self.dice.value());
                self.program.push(CompareSwap { cell, register, value });
            }
            _ => self.program.push(Fence),
        }
    }

    /// Stores for all to see, a fence, and a look.
    fn publish(&mut self) {
        let me = self.thread;
        let open = move |role| match role {
            Role::Open => true,
            Role::Kept(owner, Sharing::Shared) => owner == me,
            _ => false,
        };
        for _ in 0..self.dice.between(1, 3) {
            if let Some(cell) = self.cell(open) {
                self.push_store(cell);
            }
        }
        self.look();
    }

    fn look(&mut self) {
        self.push_fence();
        self.peek();
    }

    /// A load of a cell that others may write; of a passed one now and then.
    fn peek(&mut self) {
        let passed = self.dice.chance(15);
        let seen = move |role| match role {
            Role::Open | Role::Kept(_, Sharing::Shared) => true,
            Role::Passed => passed,
            Role::Kept(_, Sharing::Local) => false,
        };
        if let Some(cell) = self.cell(seen) {
            self.push_load(cell);
        }
    }

    /// Work on own cells; on local ones only, if another cell is to be loaded after it.
    fn own_work(&mut self) {
        let me = self.thread;
        let clean = self.dice.chance(30);
        if clean {
            self.push_fence();
        }
        let own = move |role| match role {
            Role::Kept(owner, sharing) => owner == me && !(clean && sharing == Sharing::Shared),
            _ => false,
        };
        for _ in 0..self.dice.between(1, 4) {
            if let Some(cell) = self.cell(own) {
                match self.dice.chance(50) {
                    true => self.push_store(cell),
                    false => self.push_load(cell),
                }
            }
        }
        let (register, value) = (self.register(), self.dice.value());
        self.program.push(Add { register, value });
        if clean {
            self.peek();
        }
    }

    /// A COMPARE-SWAP, at times after a load that makes it likely to write.
    fn swap(&mut self) {
        let me = self.thread;
        let mine = move |role| match role {
            Role::Open => true,
            Role::Kept(owner, _) => owner == me,
            Role::Passed => false,
        };
        if let Some(cell) = self.cell(mine) {
            let register = self.register();
            let value = self.dice.value();
            if self.dice.chance(50) {
                self.push_fence();
                self.program.push(Load { cell, register });
            }
            self.program.push(CompareSwap { cell, register, value });
        }
    }

    /// Acquire, work, fence, release. With the flag clear and the cell local, other cells
    /// may be loaded with the work still pending.
    fn borrow(&mut self) {
        let Some(cell) = self.cell(|role| role == Role::Passed) else { return self.count() };
        let local = self.dice.chance(60);
        let clean = local && self.dice.chance(50);
        if clean {
            self.push_fence();
        } else if self.dice.chance(25) {
            // Its own pending store does not keep a thread from acquiring the cell.
            self.push_store(cell);
        }
        self.program.push(if local { AcquireLocal { cell } } else { AcquireShared { cell } });
        for _ in 0..self.dice.between(1, 4) {
            match self.dice.below(10) {
                0..=5 => self.push_store(cell),
                6..=7 if clean => self.peek(),
                _ => self.push_load(cell),
            }
        }
        self.push_fence();
        self.program.push(Release { cell });
    }

    /// A sum and a branch to a sentence's beginning, or past the end.
    fn count(&mut self) {
        let register = self.register();
        let value = self.dice.value();
        self.program.push(Add { register, value });
        if self.dice.chance(60) {
            let target = match self.dice.chance(95) {
                true => self.dice.pick(&self.starts),
                false => self.dice.between(0, MOST_INSTRUCTIONS),
            };
            let value = self.dice.value();
            self.program.push(Branch { target, register, value });
        }
    }
}
