//! Random schedules, grown by running the machine: mostly items that it takes, and at
//! will a last item that it refuses with a wanted number.

use crate::case::*;
use crate::dice::Dice;
use crate::machine::Machine;
use crate::programs::any_instruction;
use crate::refusal::refusal;

/// A case with the machine as it stands after the case's schedule.
pub struct Growth {
    pub case: Case,
    machine: Machine,
    /// Which instructions have been carried out; the others may still be changed.
    used: Vec<Vec<bool>>,
}

impl Growth {
    pub fn new(case: Case) -> Growth {
        let machine = Machine::new(&case);
        let used = case.programs.iter().map(|program| vec![false; program.len()]).collect();
        Growth { case, machine, used }
    }

    fn take(&mut self, item: Item) {
        if let Item::Step(thread) = item {
            let position = self.machine.thread(thread).position;
            self.used[thread - 1][position] = true;
        }
        self.machine.take(item);
        self.case.schedule.push(item);
    }

    /// Takes items until the schedule is as long as wanted or nothing can be taken.
    pub fn grow(&mut self, dice: &mut Dice, wanted: usize) {
        let drains = dice.pick(&[3, 15, 40, 70]);
        let mut favourite = 1;
        while self.case.schedule.len() < wanted {
            if dice.chance(20) {
                favourite = dice.between(1, self.case.threads());
            }
            match self.choose(dice, drains, favourite) {
                Some(item) => self.take(item),
                None => return,
            }
        }
    }

    fn choose(&self, dice: &mut Dice, drains: usize, favourite: ThreadNumber) -> Option<Item> {
        let mut open = items_for(self.case.threads());
        open.retain(|item| refusal(&self.machine, *item).is_none());
        let prefer_drain = dice.chance(drains);
        let kind = |item: &Item| matches!(item, Item::Drain(_)) == prefer_drain;
        if open.iter().any(kind) {
            open.retain(kind);
        }
        let liked = Item::Step(favourite);
        if open.contains(&liked) && dice.chance(60) {
            return Some(liked);
        }
        (!open.is_empty()).then(|| dice.pick(&open))
    }

    /// Ends the schedule with an item refused with the number; false if none was found.
    pub fn stop_with(&mut self, dice: &mut Dice, number: u8) -> bool {
        let mut natural = items_for(self.case.threads());
        natural.retain(|item| refusal(&self.machine, *item) == Some(number));
        if !natural.is_empty() && dice.chance(60) {
            self.case.schedule.push(dice.pick(&natural));
            return true;
        }
        if number == 20 {
            return self.stop_past_the_end(dice);
        }
        for _ in 0..400 {
            let thread = dice.between(1, self.case.threads());
            let count = self.case.programs[thread - 1].len();
            let offence = any_instruction(dice, self.case.cells.len(), count);
            if self.offends(thread, offence, number) {
                self.put(thread, offence);
                self.case.schedule.push(Item::Step(thread));
                return true;
            }
        }
        false
    }

    /// A branch to the end, then one step more.
    fn stop_past_the_end(&mut self, dice: &mut Dice) -> bool {
        let fresh: Vec<usize> = (1..=self.case.threads()).filter(|t| self.is_fresh(*t)).collect();
        if fresh.is_empty() {
            return false;
        }
        let thread = dice.pick(&fresh);
        let register = dice.below(REGISTERS);
        let value = self.machine.thread(thread).registers[register];
        let grown = self.machine.thread(thread).position == self.case.programs[thread - 1].len();
        let target = self.case.programs[thread - 1].len() + usize::from(grown);
        self.put(thread, Instruction::Branch { target, register, value });
        self.take(Item::Step(thread));
        self.case.schedule.push(Item::Step(thread));
        true
    }

    /// May the thread's next instruction still be changed, or one be added there?
    fn is_fresh(&self, thread: ThreadNumber) -> bool {
        let position = self.machine.thread(thread).position;
        match self.used[thread - 1].get(position) {
            Some(used) => !used,
            None => position < MOST_INSTRUCTIONS,
        }
    }

    fn offends(&self, thread: ThreadNumber, offence: Instruction, number: u8) -> bool {
        if !self.is_fresh(thread) {
            return false;
        }
        let mut trial = self.machine.clone();
        let worker = trial.thread_mut(thread);
        worker.program.truncate(worker.position);
        worker.program.push(offence);
        refusal(&trial, Item::Step(thread)) == Some(number)
    }

    fn put(&mut self, thread: ThreadNumber, instruction: Instruction) {
        let position = self.machine.thread(thread).position;
        for program in
            [&mut self.case.programs[thread - 1], &mut self.machine.thread_mut(thread).program]
        {
            match program.get_mut(position) {
                Some(place) => *place = instruction,
                None => program.push(instruction),
            }
        }
        self.used[thread - 1].resize(self.case.programs[thread - 1].len(), false);
    }

    /// Items behind the stop, which nobody may look at.
    pub fn add_tail(&mut self, dice: &mut Dice) {
        let items = items_for(self.case.threads());
        for _ in 0..dice.below(6) {
            self.case.schedule.push(dice.pick(&items));
        }
        self.case.schedule.truncate(MOST_ITEMS);
    }
}
