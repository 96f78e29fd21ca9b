//! Seeded random cases: taken whole, stopped on purpose, or damaged.

use crate::case::MOST_ITEMS;
use crate::damage::damage;
use crate::dice::Dice;
use crate::programs::random_case;
use crate::schedules::Growth;
use crate::writer::bytes_of;

const STOPS: [u8; 11] = [20, 21, 22, 23, 30, 31, 32, 33, 34, 35, 36];

pub fn generate(seed: u64, count: usize) -> Vec<Vec<u8>> {
    let mut dice = Dice::new(seed);
    (0..count).map(|_| one(&mut dice)).collect()
}

pub fn one(dice: &mut Dice) -> Vec<u8> {
    match dice.below(100) {
        0..=39 => bytes_of(&taken(dice).case),
        40..=69 => stopped(dice),
        _ => {
            let growth = taken(dice);
            damage(dice, &growth.case)
        }
    }
}

fn wanted_items(dice: &mut Dice) -> usize {
    match dice.below(100) {
        0..=5 => dice.below(10),
        6..=19 => dice.between(10, 80),
        20..=74 => dice.between(80, 400),
        75..=93 => dice.between(400, MOST_ITEMS),
        _ => MOST_ITEMS,
    }
}

fn taken(dice: &mut Dice) -> Growth {
    let mut growth = Growth::new(random_case(dice));
    let wanted = wanted_items(dice);
    growth.grow(dice, wanted);
    growth
}

/// A case that stops with a number chosen beforehand, wherever that can be had.
fn stopped(dice: &mut Dice) -> Vec<u8> {
    let number = dice.pick(&STOPS);
    for _ in 0..40 {
        let mut growth = Growth::new(random_case(dice));
        let wanted = wanted_items(dice).min(MOST_ITEMS - 2);
        growth.grow(dice, wanted);
        if growth.stop_with(dice, number) {
            growth.add_tail(dice);
            return bytes_of(&growth.case);
        }
    }
    bytes_of(&taken(dice).case)
}
