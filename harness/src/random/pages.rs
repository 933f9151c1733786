//! Register pages, offsets and values that a host writes.

use super::Random;
use crate::model::words::bytes_of;

/// 16 words: often as a module leaves them, at times any.
pub fn page(random: &mut Random) -> Vec<u8> {
    let mut words = [0; 16];
    if random.chance(1, 3) {
        words = words.map(|_: u32| random.word());
    } else {
        words[0] = random.vector(16);
        words[1] = random.vector(16);
    }
    if random.chance(1, 2) {
        words[2] = random.below(4) as u32;
    }
    if random.chance(1, 2) {
        words[3] = random.below(4) as u32;
    }
    bytes_of(&words)
}

/// Mostly 64, else near it, whole words or not, or none.
pub fn page_length(random: &mut Random) -> usize {
    if random.chance(4, 5) {
        64
    } else {
        random.pick(&[0, 1, 4, 32, 60, 63, 65, 68, 128])
    }
}

/// Mostly the start of a word, often of the flags or of enable; else within a word, or at 64 and above.
pub fn offset(random: &mut Random) -> u32 {
    match random.below(8) {
        0 | 1 => 8,
        2 | 3 => 12,
        4 | 5 => 4 * random.between(0, 15),
        6 => random.between(0, 70),
        _ => random.pick(&[64, 68, 72, 76, 256, 264, 1 << 16, 0x8000_0008, u32::MAX - 3, u32::MAX]),
    }
}

/// A value to write: often one of the two flags.
pub fn value(random: &mut Random) -> u32 {
    if random.chance(2, 3) {
        random.below(4) as u32
    } else {
        random.word()
    }
}
