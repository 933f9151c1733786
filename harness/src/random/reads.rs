//! Reads: N words, or 2N where the setup is partitionable, and a controller word without bits at N or above.

use super::Random;
use crate::model::setup::Setup;
use crate::model::state::State;
use crate::model::views::{is_view_word, Views};
use crate::model::words::full;

/// A read as a module with this state may get it: mostly words near its own syndromes and views, some
/// that are not heard by rule 2, some that the controller did not hear.
pub fn read(random: &mut Random, setup: &Setup, state: &State) -> (Vec<u32>, u32) {
    let n = setup.n;
    let common = match random.below(6) {
        0 | 1 => state.latest,
        2 => state.before,
        3 | 4 => full(n),
        _ => random.vector(n),
    };
    let noise = random.below(4);
    let mut words = Vec::with_capacity(setup.read_length());
    for _ in 0..n {
        words.push(word(random, n, common, noise));
    }
    let mut controller = controller(random, n);
    if let Some(views) = &state.views {
        words.extend(view_words(random, n, state));
        // A module that is not out goes out with the first read without a majority, so most of its reads have one.
        if !views.out && random.chance(7, 8) {
            agree(random, setup, views, &mut words[n..], &mut controller);
        }
    }
    (words, controller)
}

fn controller(random: &mut Random, n: usize) -> u32 {
    match random.below(8) {
        0..=2 => full(n),
        3 => full(n) & !(1 << random.below(n)),
        4 => random.word() & full(n),
        5 => 0,
        6 => 1 << random.below(n),
        _ => full(n) & (random.word() | random.word()),
    }
}

/// One word; `noise` 0 gives the common row to all, 3 gives many other words.
pub fn word(random: &mut Random, n: usize, common: u32, noise: usize) -> u32 {
    noisy_word(random, n, 5, common, noise)
}

/// The same of a view word.
pub fn view_word(random: &mut Random, n: usize, common: u32, noise: usize) -> u32 {
    noisy_word(random, n, 10, common, noise)
}

fn noisy_word(random: &mut Random, n: usize, kind: u32, common: u32, noise: usize) -> u32 {
    let right = kind << 28;
    if random.below(4) >= noise {
        return right | common;
    }
    match random.below(10) {
        0..=2 => right | (common ^ (1 << random.below(n))),
        3 | 4 => right | random.vector(n),
        // Not heard: a bit at N or above, another kind, any word.
        5 => right | common | 1 << (n + random.below(28 - n)),
        6 => right | common | 1 << n,
        7 => (random.word() & 0xF) << 28 | common,
        8 => 0,
        _ => random.word(),
    }
}

/// The view words of a read, near the module's own views: all alike, some of them others, or two parties that are about as strong.
fn view_words(random: &mut Random, n: usize, state: &State) -> Vec<u32> {
    let common = match random.below(6) {
        0..=2 => state.view,
        3 => state.shown(),
        4 => full(n),
        _ => random.vector(n),
    };
    let noise = random.pick(&[0, 0, 1, 1, 2, 3]);
    let mut words: Vec<u32> = (0..n).map(|_| view_word(random, n, common, noise)).collect();
    if random.chance(1, 6) {
        let (from, other) = (random.below(n), random.vector(n));
        let count = n / 2 + random.below(2);
        (0..count).for_each(|at| words[(from + at) % n] = 10 << 28 | other);
    }
    words
}

/// Lets more than half carry the same view, together with the words that are taken from the read before. The others stay as they are.
fn agree(random: &mut Random, setup: &Setup, views: &Views, words: &mut [u32], controller: &mut u32) {
    let (n, u) = (setup.n, setup.u());
    let common = match (views.words[random.below(n)], words[random.below(n)]) {
        (before, _) if before != 0 && u == 1 && random.chance(9, 10) => before,
        (_, word) if is_view_word(n, word) => word,
        _ => 10 << 28 | full(n),
    };
    // Where two reads count, each has half as many others.
    let others = (n - 1) / (2 + 2 * u);
    let from = random.below(n);
    for at in others..n {
        let j = (from + at) % n;
        words[j] = common;
        *controller |= 1 << j;
    }
}

/// A controller word with a bit at N or above.
pub fn spoiled_controller(random: &mut Random, n: usize) -> u32 {
    match random.below(4) {
        0 => full(n) | 1 << n,
        1 => 1 << (n + random.below(32 - n)),
        2 => full(n) | 1 << 31,
        _ => random.word() | 1 << (n + random.below(32 - n)),
    }
}
