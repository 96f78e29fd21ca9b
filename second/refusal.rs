//! Which items are not taken: one question for each number from 20 to 36, each asked
//! by itself. An item may deserve several numbers; the smallest is given.

use crate::case::*;
use crate::machine::Machine;
use Instruction::*;

/// An item in front of a machine, with the instruction it would carry out.
struct Asked<'a> {
    machine: &'a Machine,
    item: Item,
    thread: ThreadNumber,
    next: Option<Instruction>,
}

type Question = fn(&Asked) -> bool;

const QUESTIONS: [(u8, Question); 11] = [
    (20, program_at_its_end),
    (21, must_wait_for_the_buffer),
    (22, depth_reached),
    (23, drain_of_nothing),
    (30, load_of_anothers_local),
    (31, load_with_flag_set),
    (32, store_to_anothers),
    (33, acquire_of_owned),
    (34, acquire_with_store_elsewhere),
    (35, release_of_not_own),
    (36, release_with_pending),
];

/// The number with which the item is refused, if it is.
pub fn refusal(machine: &Machine, item: Item) -> Option<u8> {
    let (thread, next) = match item {
        Item::Step(thread) => (thread, machine.next(thread)),
        Item::Drain(thread) => (thread, None),
    };
    let asked = Asked { machine, item, thread, next };
    let deserved = QUESTIONS.iter().filter(|(_, question)| question(&asked));
    deserved.map(|(number, _)| *number).min()
}

impl Asked<'_> {
    fn own_pending(&self) -> usize {
        self.machine.pending_of(self.thread)
    }

    fn loaded(&self) -> Option<Cell> {
        match self.next {
            Some(Load { cell, .. }) => Some(self.machine.cells[cell]),
            _ => None,
        }
    }

    fn stored(&self) -> Option<Cell> {
        match self.next {
            Some(StoreConstant { cell, .. } | StoreRegister { cell, .. }) => {
                Some(self.machine.cells[cell])
            }
            _ => None,
        }
    }

    fn swapped(&self) -> Option<Cell> {
        match self.next {
            Some(CompareSwap { cell, .. }) => Some(self.machine.cells[cell]),
            _ => None,
        }
    }

    fn acquired(&self) -> Option<usize> {
        match self.next {
            Some(AcquireLocal { cell } | AcquireShared { cell }) => Some(cell),
            _ => None,
        }
    }

    fn released(&self) -> Option<Cell> {
        match self.next {
            Some(Release { cell }) => Some(self.machine.cells[cell]),
            _ => None,
        }
    }
}

fn program_at_its_end(asked: &Asked) -> bool {
    matches!(asked.item, Item::Step(_)) && asked.next.is_none()
}

fn must_wait_for_the_buffer(asked: &Asked) -> bool {
    matches!(asked.next, Some(Fence | CompareSwap { .. })) && asked.own_pending() > 0
}

fn depth_reached(asked: &Asked) -> bool {
    asked.stored().is_some() && asked.own_pending() >= asked.machine.depth
}

fn drain_of_nothing(asked: &Asked) -> bool {
    matches!(asked.item, Item::Drain(_)) && asked.own_pending() == 0
}

fn load_of_anothers_local(asked: &Asked) -> bool {
    let barred = |cell: Cell| cell.owner != asked.thread && cell.sharing == Sharing::Local;
    asked.loaded().is_some_and(barred)
}

fn load_with_flag_set(asked: &Asked) -> bool {
    let foreign = |cell: Cell| cell.owner != asked.thread && cell.sharing == Sharing::Shared;
    asked.loaded().is_some_and(foreign) && asked.machine.thread(asked.thread).flag
}

fn store_to_anothers(asked: &Asked) -> bool {
    let barred = |cell: Cell| cell.owner != NOBODY && cell.owner != asked.thread;
    asked.stored().or(asked.swapped()).is_some_and(barred)
}

fn acquire_of_owned(asked: &Asked) -> bool {
    asked.acquired().is_some_and(|cell| asked.machine.cells[cell].owner != NOBODY)
}

fn acquire_with_store_elsewhere(asked: &Asked) -> bool {
    let elsewhere = |cell: usize| {
        let stores = &asked.machine.pending;
        stores.iter().any(|store| store.cell == cell && store.thread != asked.thread)
    };
    asked.acquired().is_some_and(elsewhere)
}

fn release_of_not_own(asked: &Asked) -> bool {
    asked.released().is_some_and(|cell| cell.owner != asked.thread)
}

fn release_with_pending(asked: &Asked) -> bool {
    asked.released().is_some() && asked.own_pending() > 0
}
