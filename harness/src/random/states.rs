//! Accepted states: made from fields, and reached by stepping.

use super::changes::new_limits;
use super::doubles::{score_below, score_from};
use super::reads::{read, view_word};
use super::Random;
use crate::model::change::{accept, setup_after};
use crate::model::setup::{Limits, Setup};
use crate::model::state::{fresh, Entry, State};
use crate::model::step::step;
use crate::model::views::{is_view_word, Views};
use crate::model::words::{bytes_of, has, only, Double, MAX};

/// A state made from fields within the limits of number 8.
pub fn state(random: &mut Random, setup: &Setup) -> State {
    let n = setup.n;
    let mut previous = [Entry::default(); MAX];
    for entry in &mut previous[..n] {
        if random.chance(3, 4) {
            *entry = Entry { heard: true, row: random.vector(n) };
        }
    }
    let own = random.between(1, n as u32) as usize;
    let mut state = State { previous, latest: random.vector(n), before: random.vector(n), view: 0, ..fresh(setup, own) };
    for j in 1..=n {
        match setup.limits {
            Limits::Counts { penalty, reward } => any_counts(random, setup, &mut state, j, penalty, reward),
            Limits::Fading { limit, .. } => any_score(random, &mut state, j, limit.0),
        }
        if !has(state.view, j) {
            state.returns[j - 1] = any_returns(random, setup);
        }
    }
    state.views = setup.partitionable.then(|| any_views(random, n, state.view));
    state
}

/// View words near a common view, some of them missing; any views, in or out.
fn any_views(random: &mut Random, n: usize, local: u32) -> Views {
    let common = if random.chance(1, 2) { local } else { random.vector(n) };
    let noise = random.below(4);
    let mut words = [0; MAX];
    for word in &mut words[..n] {
        let made = view_word(random, n, common, noise);
        *word = if is_view_word(n, made) { made } else { 0 };
    }
    Views { words, earlier: random.vector(n), adopted: random.vector(n), out: random.chance(1, 5) }
}

/// Penalty, reward and view of module j.
fn any_counts(random: &mut Random, setup: &Setup, state: &mut State, j: usize, p: u32, r: u32) {
    let penalty = any_penalty(random, p, setup.module(j).criticality);
    state.penalty[j - 1] = penalty;
    if penalty <= p {
        state.view |= only(j);
    }
    if penalty > 0 {
        state.reward[j - 1] = any_reward(random, r);
    }
}

/// Score and view of module j.
fn any_score(random: &mut Random, state: &mut State, j: usize, limit: f64) {
    let in_view = random.chance(2, 3);
    let score = if in_view { score_below(random, limit) } else { score_from(random, limit) };
    state.score[j - 1] = Double(score);
    if in_view {
        state.view |= only(j);
    }
}

/// 0..P + criticality.
fn any_penalty(random: &mut Random, limit: u32, criticality: u32) -> u32 {
    match random.below(9) {
        0 | 1 => 0,
        2 => limit,
        3 => limit - 1,
        4 => limit + 1,
        5 => limit + criticality,
        6 => limit.saturating_sub(criticality),
        7 => (limit + 1).saturating_sub(criticality),
        _ => random.between(0, limit + criticality),
    }
}

/// 0..R-1.
fn any_reward(random: &mut Random, limit: u32) -> u32 {
    let most = limit - 1;
    match random.below(5) {
        0 => 0,
        1 | 2 => most,
        3 => most.saturating_sub(1),
        _ => random.between(0, most),
    }
}

/// The return count of a module outside the view: 0..Q-1, 0 where Q is 0.
fn any_returns(random: &mut Random, setup: &Setup) -> u32 {
    let most = setup.return_limit.saturating_sub(1);
    match random.below(6) {
        0 => 0,
        1 | 2 => most,
        3 => most.saturating_sub(1),
        _ => random.between(0, most),
    }
}

/// A state reached from opening by some steps with losses and lies, and with changes of the limits between; with the setup that it then has.
pub fn reached_with_changes(random: &mut Random, setup: &Setup) -> (Setup, State) {
    let mut setup = *setup;
    let mut state = fresh(&setup, random.between(1, setup.n as u32) as usize);
    for _ in 0..random.below(25) {
        if random.chance(1, 4) {
            let new = bytes_of(&new_limits(random, &setup).words());
            // Refused while one waits and by a setup that fades.
            state = accept(&setup, &state, &new, random.between(1, 5)).unwrap_or(state);
        }
        let (words, controller) = read(random, &setup, &state);
        let after = *setup_after(&setup, &state);
        step(&setup, &mut state, &words, controller).expect("a made read is accepted");
        setup = after;
    }
    (setup, state)
}

/// A state reached from opening by some steps with losses and lies.
pub fn reached_state(random: &mut Random, setup: &Setup) -> State {
    let mut state = fresh(setup, random.between(1, setup.n as u32) as usize);
    for _ in 0..random.below(25) {
        let (words, controller) = read(random, setup, &state);
        step(setup, &mut state, &words, controller).expect("a made read is accepted");
    }
    state
}
