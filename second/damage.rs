//! Damage to well-formed cases: each kind of field out of its range, and lengths that
//! do not fit.

use crate::case::*;
use crate::dice::Dice;
use crate::writer::{bytes_of, correct_length, places, Places};

/// A case under damage. Offsets are those of the undamaged case.
struct Damaged<'a> {
    dice: &'a mut Dice,
    case: &'a Case,
    places: Places,
    bytes: Vec<u8>,
}

pub fn damage(dice: &mut Dice, case: &Case) -> Vec<u8> {
    let bytes = bytes_of(case);
    let places = places(case);
    let mut damaged = Damaged { dice, case, places, bytes };
    damaged.once();
    while damaged.dice.chance(20) {
        damaged.once();
    }
    damaged.bytes
}

impl Damaged<'_> {
    fn once(&mut self) {
        match self.dice.below(20) {
            0 => self.flip(),
            1 => self.set_some_byte(),
            2 => self.cut(false),
            3..=4 => self.cut(true),
            5 => self.extend(false),
            6 => self.extend(true),
            7 => self.sizes(),
            8 => self.instruction_count(),
            9 => self.item_count(),
            10 => self.owner(),
            11 => self.sharing(),
            12 => self.operation(),
            13 => self.cell_or_target(),
            14 => self.register(),
            15 => self.unused(),
            16 => self.item(),
            17 => self.whole_record(),
            18 => self.whole_instruction(),
            _ => self.beginning(),
        }
    }

    fn put(&mut self, at: usize, byte: u8) {
        if let Some(place) = self.bytes.get_mut(at) {
            *place = byte;
        }
    }

    fn flip(&mut self) {
        if !self.bytes.is_empty() {
            let at = self.dice.below(self.bytes.len());
            self.bytes[at] ^= 1 << self.dice.below(8);
        }
    }

    fn set_some_byte(&mut self) {
        if !self.bytes.is_empty() {
            let at = self.dice.below(self.bytes.len());
            self.bytes[at] = self.dice.pick(&[0, 1, 2, 127, 128, 255]);
        }
    }

    fn cut(&mut self, corrected: bool) {
        let length = self.dice.below(self.bytes.len() + 1);
        let short = self.dice.chance(40);
        self.bytes.truncate(if short { length.min(80) } else { length });
        if corrected {
            correct_length(&mut self.bytes);
        }
    }

    fn extend(&mut self, corrected: bool) {
        for _ in 0..self.dice.between(1, 9) {
            let byte = self.dice.byte();
            self.bytes.push(byte);
        }
        if corrected {
            correct_length(&mut self.bytes);
        }
    }

    /// Threads, cells, depth: outside the limits, or another number inside them.
    fn sizes(&mut self) {
        let (at, most) = self.dice.pick(&[(3, MOST_THREADS), (4, MOST_CELLS), (5, MOST_DEPTH)]);
        let byte = match self.dice.below(4) {
            0 => 0,
            1 => most + 1,
            2 => self.dice.between(most, 255),
            _ => self.dice.between(1, most),
        };
        self.put(at, byte as u8);
    }

    fn instruction_count(&mut self) {
        let thread = self.dice.below(self.case.threads());
        let count = self.case.programs[thread].len() as u8;
        let any = self.dice.byte();
        let byte = self.dice.pick(&[33, 255, count + 1, count.saturating_sub(1), any]);
        self.put(self.places.counts[thread], byte);
    }

    fn item_count(&mut self) {
        let count = self.case.schedule.len() as u16;
        let other = self.dice.pick(&[1025, 65_535, count + 1, count.saturating_sub(1), 256]);
        let [high, low] = other.to_be_bytes();
        self.put(self.places.schedule, high);
        self.put(self.places.schedule + 1, low);
    }

    fn owner(&mut self) {
        let cell = self.dice.below(self.case.cells.len());
        let byte = self.dice.pick(&[self.case.threads() as u8 + 1, 5, 255, 0]);
        self.put(self.places.cells[cell] + 4, byte);
    }

    fn sharing(&mut self) {
        let cell = self.dice.below(self.case.cells.len());
        let byte = self.dice.pick(&[0, 0, 2, 255]);
        self.put(self.places.cells[cell] + 5, byte);
        if byte == 0 && self.dice.chance(50) {
            self.put(self.places.cells[cell] + 4, 0);
        }
    }

    /// Some instruction: its offset, itself, and its thread's count. Without any, a flip.
    fn some_instruction(&mut self) -> Option<(usize, Instruction, usize)> {
        let mut all = Vec::new();
        for (thread, program) in self.case.programs.iter().enumerate() {
            for (index, instruction) in program.iter().enumerate() {
                all.push((self.places.instructions[thread][index], *instruction, program.len()));
            }
        }
        if all.is_empty() {
            self.flip();
            return None;
        }
        Some(self.dice.pick(&all))
    }

    fn operation(&mut self) {
        if let Some((at, _, _)) = self.some_instruction() {
            let any = self.dice.byte();
            let byte = self.dice.pick(&[0, 11, 12, 255, any]);
            self.put(at, byte);
        }
    }

    fn cell_or_target(&mut self) {
        if let Some((at, instruction, count)) = self.some_instruction() {
            let bound = match instruction {
                Instruction::Branch { .. } => count + 1,
                _ => self.case.cells.len(),
            };
            let byte = self.dice.pick(&[bound as u8, bound as u8, 33, 255]);
            self.put(at + 1, byte);
        }
    }

    fn register(&mut self) {
        if let Some((at, _, _)) = self.some_instruction() {
            let byte = self.dice.pick(&[4, 5, 128, 255]);
            self.put(at + 2, byte);
        }
    }

    /// A byte of a field that the instruction does not use becomes nonzero.
    fn unused(&mut self) {
        use Instruction::*;
        let Some((at, instruction, _)) = self.some_instruction() else { return };
        let unused: &[usize] = match instruction {
            Load { .. } | StoreRegister { .. } => &[3, 4, 5, 6],
            StoreConstant { .. } => &[2],
            Fence => &[1, 2, 3, 4, 5, 6],
            AcquireLocal { .. } | AcquireShared { .. } | Release { .. } => &[2, 3, 4, 5, 6],
            Add { .. } => &[1],
            CompareSwap { .. } | Branch { .. } => return self.flip(),
        };
        let byte = self.dice.pick(&[1, 2, 255]);
        let offset = self.dice.pick(unused);
        self.put(at + offset, byte);
    }

    /// Owner and sharing of one cell at once, at times cut within the record.
    fn whole_record(&mut self) {
        let cell = self.dice.below(self.case.cells.len());
        let at = self.places.cells[cell];
        for offset in [4, 5] {
            let byte = self.dice.pick(&[0, 1, 2, 3, 5, 255]);
            self.put(at + offset, byte);
        }
        self.cut_within(at, 6);
    }

    /// Several bytes of one instruction at once, at times cut within it.
    fn whole_instruction(&mut self) {
        if let Some((at, _, _)) = self.some_instruction() {
            for offset in 0..7 {
                if self.dice.chance(40) {
                    let byte = self.dice.pick(&[0, 1, 4, 9, 11, 32, 255]);
                    self.put(at + offset, byte);
                }
            }
            self.cut_within(at, 7);
        }
    }

    fn cut_within(&mut self, at: usize, length: usize) {
        if self.dice.chance(25) {
            self.bytes.truncate(at + self.dice.below(length + 1));
            correct_length(&mut self.bytes);
        }
    }

    fn item(&mut self) {
        let count = self.case.schedule.len();
        if count == 0 {
            return self.flip();
        }
        let at = self.places.items + self.dice.below(count);
        let above = self.case.threads() as u8 + 1;
        let byte = self.dice.pick(&[0, 5, 16, 21, 255, above, 16 + above]);
        self.put(at, byte);
    }

    /// Version, the length field, or hardly any bytes at all.
    fn beginning(&mut self) {
        match self.dice.below(3) {
            0 => {
                let byte = self.dice.pick(&[0, 2, 255]);
                self.put(0, byte);
            }
            1 => {
                let at = self.dice.between(1, 2);
                let byte = self.dice.byte();
                self.put(at, byte);
            }
            _ => self.bytes.truncate(self.dice.below(4)),
        }
    }
}
