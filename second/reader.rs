//! From bytes to a case, or to the first complaint (numbers 1 to 8).
//! The bytes are walked once, front to back; each complaint carries its offset.

use crate::answer::Answer;
use crate::case::*;

/// Where the walk stands.
struct Walk<'a> {
    bytes: &'a [u8],
    at: usize,
}

/// A field that is wholly there: its offset and its bytes.
struct Field<'a> {
    at: usize,
    bytes: &'a [u8],
}

type Judged<T> = Result<T, Answer>;

/// Refuses with the number and place unless the condition holds.
fn hold(condition: bool, number: u8, place: usize) -> Judged<()> {
    if condition {
        Ok(())
    } else {
        Err(Answer::malformed(number, place))
    }
}

pub fn read(bytes: &[u8]) -> Judged<Case> {
    hold(bytes.len() >= 3, 1, 0)?;
    hold(bytes[0] == 1, 2, 0)?;
    let stated = usize::from(bytes[1]) * 256 + usize::from(bytes[2]);
    hold(stated == bytes.len(), 3, 1)?;
    let mut walk = Walk { bytes, at: 3 };
    let threads = walk.count(1, MOST_THREADS)?;
    let cell_count = walk.count(1, MOST_CELLS)?;
    let depth = walk.count(1, MOST_DEPTH)?;
    let mut cells = Vec::new();
    for _ in 0..cell_count {
        cells.push(walk.cell(threads)?);
    }
    let mut programs = Vec::new();
    for _ in 0..threads {
        programs.push(walk.program(cell_count)?);
    }
    let schedule = walk.schedule(threads)?;
    hold(walk.at == bytes.len(), 5, walk.at)?;
    Ok(Case { depth, cells, programs, schedule })
}

impl<'a> Walk<'a> {
    /// The next field of so many bytes; 5 at its beginning if it is not wholly there.
    fn field(&mut self, length: usize) -> Judged<Field<'a>> {
        let at = self.at;
        let rest = &self.bytes[at..];
        hold(rest.len() >= length, 5, at)?;
        self.at += length;
        Ok(Field { at, bytes: &rest[..length] })
    }

    /// A count of one byte.
    fn count(&mut self, least: usize, most: usize) -> Judged<usize> {
        let field = self.field(1)?;
        let count = usize::from(field.bytes[0]);
        hold(least <= count && count <= most, 4, field.at)?;
        Ok(count)
    }

    fn cell(&mut self, threads: usize) -> Judged<Cell> {
        let field = self.field(6)?;
        let owner = usize::from(field.bytes[4]);
        hold(owner <= threads, 6, field.at + 4)?;
        let sharing = match field.bytes[5] {
            1 => Sharing::Shared,
            0 if owner != NOBODY => Sharing::Local,
            _ => return Err(Answer::malformed(6, field.at + 5)),
        };
        Ok(Cell { value: field.number(0), owner, sharing })
    }

    fn program(&mut self, cells: usize) -> Judged<Vec<Instruction>> {
        let count = self.count(0, MOST_INSTRUCTIONS)?;
        let mut program = Vec::new();
        for _ in 0..count {
            program.push(self.field(7)?.instruction(cells, count)?);
        }
        Ok(program)
    }

    fn schedule(&mut self, threads: usize) -> Judged<Vec<Item>> {
        let field = self.field(2)?;
        let count = usize::from(field.bytes[0]) * 256 + usize::from(field.bytes[1]);
        hold(count <= MOST_ITEMS, 4, field.at)?;
        let mut schedule = Vec::new();
        for _ in 0..count {
            schedule.push(self.field(1)?.item(threads)?);
        }
        Ok(schedule)
    }
}

impl Field<'_> {
    /// Four bytes from an offset in the field, signed.
    fn number(&self, from: usize) -> i32 {
        let bytes = &self.bytes[from..from + 4];
        i32::from_be_bytes([bytes[0], bytes[1], bytes[2], bytes[3]])
    }

    fn item(&self, threads: usize) -> Judged<Item> {
        let byte = usize::from(self.bytes[0]);
        let found = items_for(threads).into_iter().find(|item| match item {
            Item::Step(thread) => byte == *thread,
            Item::Drain(thread) => byte == 16 + *thread,
        });
        found.ok_or(Answer::malformed(8, self.at))
    }

    /// The rows of 01's table of operations, each judged cell, register, value.
    fn instruction(&self, cells: usize, count: usize) -> Judged<Instruction> {
        use Instruction::*;
        Ok(match self.bytes[0] {
            1 => Load { cell: self.second(cells)?, register: self.register_alone()? },
            2 => StoreConstant { cell: self.cell_without_register(cells)?, value: self.number(3) },
            3 => StoreRegister { cell: self.second(cells)?, register: self.register_alone()? },
            4 => self.bare(1, Fence)?,
            5 => CompareSwap {
                cell: self.second(cells)?,
                register: self.third()?,
                value: self.number(3),
            },
            6 => AcquireLocal { cell: self.cell_alone(cells)? },
            7 => AcquireShared { cell: self.cell_alone(cells)? },
            8 => Release { cell: self.cell_alone(cells)? },
            9 => Branch {
                target: self.second(count + 1)?,
                register: self.third()?,
                value: self.number(3),
            },
            10 => Add { register: self.register_without_cell()?, value: self.number(3) },
            _ => return Err(Answer::malformed(7, self.at)),
        })
    }

    /// The byte for cell or target, below a bound.
    fn second(&self, bound: usize) -> Judged<usize> {
        let byte = usize::from(self.bytes[1]);
        hold(byte < bound, 7, self.at + 1)?;
        Ok(byte)
    }

    /// The register's byte.
    fn third(&self) -> Judged<usize> {
        let byte = usize::from(self.bytes[2]);
        hold(byte < REGISTERS, 7, self.at + 2)?;
        Ok(byte)
    }

    /// Fields from the given one on (1 cell, 2 register, 3 value) are unused, so zero.
    fn bare<T>(&self, from: usize, kept: T) -> Judged<T> {
        for field in from..=3 {
            let zero = match field {
                3 => self.number(3) == 0,
                _ => self.bytes[field] == 0,
            };
            hold(zero, 7, self.at + field)?;
        }
        Ok(kept)
    }

    fn cell_alone(&self, cells: usize) -> Judged<usize> {
        let cell = self.second(cells)?;
        self.bare(2, cell)
    }

    fn register_alone(&self) -> Judged<usize> {
        let register = self.third()?;
        self.bare(3, register)
    }

    fn cell_without_register(&self, cells: usize) -> Judged<usize> {
        let cell = self.second(cells)?;
        hold(self.bytes[2] == 0, 7, self.at + 2)?;
        Ok(cell)
    }

    fn register_without_cell(&self) -> Judged<usize> {
        hold(self.bytes[1] == 0, 7, self.at + 1)?;
        self.third()
    }
}
