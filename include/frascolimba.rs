//! Frascolimba from Rust: what `frascolimba.h` says, with safe calls. Link the archive `libboundary.a` of `include/archive`, for x86-64.
//! What belongs here: the declarations and nothing that decides anything. Nothing checks them against the Rattle source but the examples.

/// The limits. A state has room for as much; how much of it is used, its counts say.
pub const THREADS: usize = 4;
pub const CELLS: usize = 32;
pub const REGISTERS: usize = 4;
pub const DEPTH: usize = 8;
pub const INSTRUCTIONS: usize = 32;
pub const ITEMS: usize = 1024;

/// What a call answers. The number is 0, or why it was refused or stopped; the thread is that of the item that was stopped, else 0.
#[repr(C)]
#[derive(Clone, Copy, Debug, PartialEq, Eq)]
pub struct Answer {
    pub place: usize,
    pub number: u32,
    pub thread: u32,
}

/// A store that has not reached memory.
#[repr(C)]
#[derive(Clone, Copy, Debug, Default, PartialEq, Eq)]
pub struct Pending {
    pub value: i32,
    pub cell: u32,
}

/// A thread's buffer: the first `count` entries are its pending stores, oldest first.
#[repr(C)]
#[derive(Clone, Copy, Debug, Default, PartialEq, Eq)]
pub struct Queue {
    pub entries: [Pending; DEPTH],
    pub count: usize,
}

/// An instruction, as a case could hold it: an unused field is zero.
#[repr(C)]
#[derive(Clone, Copy, Debug, Default, PartialEq, Eq)]
pub struct Instruction {
    pub value: i32,
    pub operation: u16,
    pub cell: u8,
    pub register: u8,
}

/// A state. Row `t - 1` of each array is thread `t`'s; its instructions begin at `(t - 1) * INSTRUCTIONS`, its registers at `(t - 1) * REGISTERS`.
#[repr(C)]
#[derive(Clone, Copy, Debug, PartialEq, Eq)]
pub struct State {
    pub threads: usize,
    pub cells: usize,
    pub depth: usize,
    pub positions: [usize; THREADS],
    pub counts: [usize; THREADS],
    pub queues: [Queue; THREADS],
    pub code: [Instruction; THREADS * INSTRUCTIONS],
    pub registers: [i32; THREADS * REGISTERS],
    pub memory: [i32; CELLS],
    pub dirty: [u32; THREADS],
    pub owners: [u8; CELLS],
    pub sharing: [u8; CELLS],
}

// The layout that the library was built for: 64-bit sizes, and no padding.
const _: () = assert!(std::mem::size_of::<Answer>() == 16 && std::mem::size_of::<State>() == 1672);

impl State {
    /// One thread with an empty program, one cell, unowned and shared, depth 1: in range, and zero everywhere else.
    pub fn smallest() -> State {
        let mut sharing = [0; CELLS];
        sharing[0] = 1;
        State {
            threads: 1,
            cells: 1,
            depth: 1,
            positions: [0; THREADS],
            counts: [0; THREADS],
            queues: [Queue::default(); THREADS],
            code: [Instruction::default(); THREADS * INSTRUCTIONS],
            registers: [0; THREADS * REGISTERS],
            memory: [0; CELLS],
            dirty: [0; THREADS],
            owners: [0; CELLS],
            sharing,
        }
    }
}

mod raw {
    use super::{Answer, State};

    extern "C" {
        pub fn frascolimba_check(bytes: *const u8, length: usize, values: *mut i32, values_length: usize, memory: *mut i32, memory_length: usize) -> Answer;
        pub fn frascolimba_step(state: *mut State, item: u8) -> Answer;
    }
}

/// The answer of any bytes. For 1 to 9 nothing is written; else `values` begins with a value for each item taken, and `memory` with the cells' memory.
pub fn check(bytes: &[u8], values: &mut [i32], memory: &mut [i32]) -> Answer {
    // Three slices that are lent for the call do not overlap, and the call keeps none of them.
    unsafe { raw::frascolimba_check(bytes.as_ptr(), bytes.len(), values.as_mut_ptr(), values.len(), memory.as_mut_ptr(), memory.len()) }
}

/// One item on a state, whatever it holds. Unless the number is 0 the state keeps every value.
pub fn step(state: &mut State, item: u8) -> Answer {
    // Any bytes are a State: it holds numbers only.
    unsafe { raw::frascolimba_step(state, item) }
}
