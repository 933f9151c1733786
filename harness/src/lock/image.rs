//! The image of a scan lock: made from a history, and the check of any bytes, after the table of include/scanlock.h.

use super::history::{History, AXES};

pub const IMAGE_BYTES: usize = 36;

pub fn image_of(history: &History) -> Vec<u8> {
    let mut words = vec![history.n << 16 | history.view()];
    for axis in 1..=AXES {
        let locks = history.locks(axis);
        let holder = locks.first().copied().unwrap_or(0);
        let flags = (history.moving(axis) as u32) << 1 | history.stopping(axis) as u32;
        words.push(holder << 8 | (locks.len() as u32) << 4 | flags);
    }
    words.iter().flat_map(|word| word.to_be_bytes()).collect()
}

/// Number and index; 0 and 0 if the image is accepted.
pub fn check(image: &[u8]) -> (u32, u32) {
    if image.is_empty() || image.len() % 4 != 0 {
        return (1, 0);
    }
    let words: Vec<u32> = image.chunks(4).map(|four| u32::from_be_bytes(four.try_into().unwrap())).collect();
    let (n, view) = (words[0] >> 16, words[0] & 0xFFFF);
    if !(2..=16).contains(&n) || view >> n != 0 {
        return (2, 0);
    }
    if words.len() != 9 {
        return (3, 0);
    }
    match (1..9).find(|&axis| !axis_fits(view, words[axis])) {
        Some(axis) => (8, axis as u32),
        None => (0, 0),
    }
}

fn axis_fits(view: u32, word: u32) -> bool {
    let (holder, depth) = (word >> 8 & 31, word >> 4 & 15);
    let held = holder != 0 && view >> (holder - 1) & 1 == 1;
    let owned = if depth == 0 { holder == 0 } else { held };
    word & !0x1FF3 == 0 && depth <= 8 && owned && word & 3 != 1
}
