//! Doubles of fading setups and of scores (document 02, E9): within their bounds, at both ends of them, and outside.

use super::Random;
use crate::model::words::Double;

/// The least double above 0.0.
const LEAST: f64 = f64::from_bits(1);

/// The highest limit.
const MOST: f64 = 1_000_000.0;

/// 0.0 to 1.0.
pub fn factor(random: &mut Random) -> f64 {
    match random.below(10) {
        0 | 1 => 0.0,
        2 | 3 => 1.0,
        4..=6 => random.pick(&[0.5, 0.1, 0.9, 1.0 / 3.0, 0.999, 1.0_f64.next_down()]),
        7 => random.pick(&[LEAST, f64::MIN_POSITIVE, f64::MIN_POSITIVE.next_down(), 1e-200]),
        8 => of_any_size(random, 1.0),
        _ => part(random),
    }
}

/// Above 0.0, at most 1,000,000.
pub fn limit(random: &mut Random) -> f64 {
    match random.below(10) {
        0..=4 => lively_limit(random),
        5 => random.pick(&[LEAST, f64::MIN_POSITIVE, 1e-200]),
        6 => random.pick(&[MOST, MOST.next_down(), MOST - 1.0]),
        7 => f64::from(random.between(1, 1_000_000)),
        8 => of_any_size(random, MOST),
        _ => MOST * part(random).max(LEAST),
    }
}

/// A limit that few charges reach: whole, between whole numbers, or just beside one.
pub fn lively_limit(random: &mut Random) -> f64 {
    match random.below(4) {
        0 => f64::from(random.between(1, 5)),
        1 => random.pick(&[0.5, 1.5, 2.7, 1.1, 1.9]),
        2 => f64::from(random.between(1, 3)).next_down(),
        _ => f64::from(random.between(1, 3)).next_up(),
    }
}

/// A score of a module in the view: 0.0 or more, below the limit. Often one charge makes it the limit, or just more or less.
pub fn score_below(random: &mut Random, limit: f64) -> f64 {
    let score = match random.below(12) {
        0..=2 => 0.0,
        3 => limit.next_down(),
        4 => limit - 1.0,
        5 => (limit - 1.0).next_down(),
        6 => (limit - 1.0).next_up(),
        7 | 8 => f64::from(random.between(0, 4)),
        9 => LEAST,
        10 => of_any_size(random, limit),
        _ => limit * part(random),
    };
    if score > 0.0 && score < limit {
        score
    } else {
        0.0
    }
}

/// A score of a module outside the view: any number from the limit on. Charges reach those below the limit and 1.0, an image may hold all.
pub fn score_from(random: &mut Random, limit: f64) -> f64 {
    let score = match random.below(10) {
        0 | 1 => limit,
        2 => limit.next_up(),
        3 => (limit + 1.0).next_down(),
        4 => limit.ceil(),
        5 => random.pick(&[1e300, f64::MAX, 9_007_199_254_740_992.0]),
        6 => of_any_size(random, f64::MAX),
        _ => limit + part(random),
    };
    score.max(limit)
}

/// What is neither a factor, nor a limit, nor a score: negative, infinite or no number.
pub fn out_of_range(random: &mut Random) -> f64 {
    match random.below(4) {
        0 => -0.0,
        1 => random.pick(&[-LEAST, -0.5, -1.0, -f64::MAX]),
        2 => random.pick(&[f64::INFINITY, f64::NEG_INFINITY]),
        _ => no_number(random),
    }
}

/// With either sign, quiet or not, and with different bits below.
fn no_number(random: &mut Random) -> f64 {
    let below = match random.below(4) {
        0 => 1,
        1 => 1 << 51,
        2 => (1 << 52) - 1,
        _ => random.any() % ((1 << 52) - 1) + 1,
    };
    f64::from_bits((random.any() & 1) << 63 | 0x7FF << 52 | below)
}

/// Not within 0 to 1.
pub fn wrong_factor(random: &mut Random) -> f64 {
    if random.chance(1, 3) {
        random.pick(&[1.0_f64.next_up(), 1.5, 2.0, f64::MAX])
    } else {
        out_of_range(random)
    }
}

/// Not above 0, or above 1,000,000.
pub fn wrong_limit(random: &mut Random) -> f64 {
    if random.chance(1, 2) {
        random.pick(&[0.0, MOST.next_up(), MOST + 1.0, f64::MAX])
    } else {
        out_of_range(random)
    }
}

/// Any positive size up to `most`, the least ones too.
fn of_any_size(random: &mut Random, most: f64) -> f64 {
    f64::from_bits(1 + random.any() % most.to_bits())
}

/// 0.0 to 1.0, without 1.0.
fn part(random: &mut Random) -> f64 {
    (random.any() >> 11) as f64 / (1_u64 << 53) as f64
}

/// Puts a double in the place of two words.
pub fn put(words: &mut [u32], at: usize, double: f64) {
    words[at..at + 2].copy_from_slice(&Double(double).words());
}
