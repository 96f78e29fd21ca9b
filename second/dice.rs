//! Seeded chance (splitmix64), the same on every machine, and the values worth trying.

pub struct Dice {
    state: u64,
}

/// Numbers at which signs, wrapping and byte order go wrong.
const EDGES: [i32; 12] =
    [0, 1, -1, -40, 40, i32::MAX, i32::MIN, i32::MAX - 1, i32::MIN + 1, 255, 256, -65_536];

impl Dice {
    pub fn new(seed: u64) -> Dice {
        Dice { state: seed }
    }

    fn next(&mut self) -> u64 {
        self.state = self.state.wrapping_add(0x9E37_79B9_7F4A_7C15);
        let mut mixed = self.state;
        mixed = (mixed ^ (mixed >> 30)).wrapping_mul(0xBF58_476D_1CE4_E5B9);
        mixed = (mixed ^ (mixed >> 27)).wrapping_mul(0x94D0_49BB_1331_11EB);
        mixed ^ (mixed >> 31)
    }

    /// 0 to bound - 1.
    pub fn below(&mut self, bound: usize) -> usize {
        ((self.next() >> 16) % bound as u64) as usize
    }

    /// Both ends included.
    pub fn between(&mut self, least: usize, most: usize) -> usize {
        least + self.below(most - least + 1)
    }

    pub fn chance(&mut self, percent: usize) -> bool {
        self.below(100) < percent
    }

    pub fn pick<T: Copy>(&mut self, list: &[T]) -> T {
        list[self.below(list.len())]
    }

    pub fn byte(&mut self) -> u8 {
        self.below(256) as u8
    }

    /// A small number, an edge, or any.
    pub fn value(&mut self) -> i32 {
        match self.below(10) {
            0..=3 => self.below(4) as i32,
            4..=8 => self.pick(&EDGES),
            _ => self.next() as u32 as i32,
        }
    }
}
