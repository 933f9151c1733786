//! Document 02, E9, sentence by sentence, on the model: answers written after its text; and over random runs and states, what a score is.

mod common;

use common::{by_model, loss, play, setup, NO_CAST, SHEET};
use harness::model::calls::{Functions, Model};
use harness::model::setup::{Form, Limits, Setup};
use harness::model::state::{fresh, image_words, read_image, State};
use harness::model::step::step;
use harness::model::words::{bytes_of, has, Double, MAX};
use harness::random::reads::read;
use harness::random::scripts::{careful_script, returning_script, script};
use harness::random::setups::{lively_setup, setup as random_setup};
use harness::random::states::{reached_state, state};
use harness::random::Random;
use harness::script::check::words;
use harness::script::print::play_rounds;
use harness::script::Script;

/// The sheet's modules, which have u = 0, with this factor, limit and return limit.
fn sheet_with(factor: f64, limit: f64, return_limit: u32) -> Setup {
    Setup { limits: Limits::fading(factor, limit), return_limit, ..setup(&SHEET) }
}

/// Rows that call 2 good, and rows that call it bad.
const GOOD: [u32; 4] = [0x5000000F; 4];
const BAD: [u32; 4] = [0x5000000D; 4];

/// What module 1 holds of 2 after steps on these rows: score, return count, and whether it is in the view.
fn held(setup: &Setup, mut state: State, rows: &[[u32; 4]]) -> Vec<(f64, u32, bool)> {
    let mut held = Vec::new();
    for rows in rows {
        step(setup, &mut state, rows, 15).unwrap();
        held.push((state.score[1].0, state.returns[1], has(state.view, 2)));
    }
    held
}

/// The same from opening on.
fn held_from_opening(setup: &Setup, rows: &[[u32; 4]]) -> Vec<(f64, u32, bool)> {
    held(setup, fresh(setup, 1), rows)
}

/// Module 1, which holds 2 with this score, in the view or outside it.
fn with_score(setup: &Setup, score: f64, in_view: bool) -> State {
    let mut state = fresh(setup, 1);
    state.score[1] = Double(score);
    if !in_view {
        state.view = 0b1101;
    }
    state
}

/// The score of 2 after one step from this score, in the view, and whether it stays.
fn after(factor: f64, limit: f64, score: f64, rows: [u32; 4]) -> (Double, bool) {
    let setup = sheet_with(factor, limit, 0);
    let (score, _, stays) = held(&setup, with_score(&setup, score, true), &[rows])[0];
    (Double(score), stays)
}

#[test]
fn a_charge_adds_1_and_a_good_round_multiplies_by_the_factor() {
    let held = held_from_opening(&sheet_with(0.5, 2.0, 0), &[BAD, GOOD, BAD, GOOD, GOOD, BAD, BAD]);
    assert_eq!(
        held,
        [
            (1.0, 0, true),
            (0.5, 0, true),
            (1.5, 0, true),
            (0.75, 0, true),
            (0.375, 0, true),
            (1.375, 0, true),
            (2.375, 0, false)
        ]
    );
}

/// m and e of a double that is m times 2 to the e, m below 2^53.
fn split(double: f64) -> (u128, i32) {
    let bits = double.to_bits();
    let (exponent, low) = ((bits >> 52) as i32, bits & ((1 << 52) - 1));
    if exponent == 0 {
        (low.into(), -1074)
    } else {
        ((low | 1 << 52).into(), exponent - 1075)
    }
}

/// m times 2 to the e, rounded to the nearest double, to even where it is halfway. No more than 2^1000.
fn rounded(m: u128, e: i32) -> f64 {
    let length = 128 - m.leading_zeros() as i32;
    let cut = (length - 53).max(-1074 - e).max(0);
    if cut > 127 {
        return 0.0;
    }
    let (whole, rest, half) = (m >> cut, m & ((1 << cut) - 1), (1 << cut) >> 1);
    let up = rest > half || (rest == half && cut > 0 && whole & 1 == 1);
    let mut double = (whole + u128::from(up)) as f64;
    // Each of these is exact.
    for _ in 0..e + cut {
        double *= 2.0;
    }
    for _ in e + cut..0 {
        double /= 2.0;
    }
    double
}

/// Sums and products in whole numbers of any length, rounded once.
#[test]
fn each_is_rounded_once() {
    let mut random = Random::new(90);
    let (mut sums, mut products, mut small) = (0, 0, 0);
    for at in 0..4_000 {
        let setup = if at % 2 == 0 { lively_setup(&mut random) } else { random_setup(&mut random) };
        let Limits::Fading { factor, .. } = setup.limits else {
            continue;
        };
        let before = state(&mut random, &setup);
        let (words, controller) = read(&mut random, &setup, &before);
        let mut after = before;
        let health = step(&setup, &mut after, &words, controller).unwrap().health;
        for j in (1..=setup.n).filter(|&j| has(before.view, j)) {
            let (m, e) = split(before.score[j - 1].0);
            let exact = if has(health, j) {
                let (by, and) = split(factor.0);
                rounded(m * by, e + and)
            } else if e < -110 {
                // Less than half of what lies between 1.0 and the next double.
                1.0
            } else {
                rounded(m + (1 << -e), e)
            };
            assert_eq!(after.score[j - 1], Double(exact), "{before:?} {j}");
            sums += u32::from(!has(health, j) && exact != before.score[j - 1].0.floor() + 1.0);
            products += u32::from(has(health, j) && exact > 0.0 && exact < before.score[j - 1].0);
            small += u32::from(exact.is_subnormal());
        }
    }
    assert!(sums > 100 && products > 100 && small > 100, "{sums} {products} {small}");
}

#[test]
fn at_or_above_the_limit_it_leaves() {
    let below = |double: f64| double.next_down();
    assert_eq!(after(0.5, 2.0, 1.0, BAD), (Double(2.0), false));
    assert_eq!(after(0.5, 2.0, below(below(1.0)), BAD), (Double(below(2.0)), true));
    // Rounded to the limit.
    assert_eq!(after(0.5, 2.0, below(1.0), BAD), (Double(2.0), false));
    assert_eq!(after(0.5, 2.0, 1.5, BAD), (Double(2.5), false));
    assert_eq!(after(0.5, 2.0, below(2.0), GOOD), (Double(below(1.0)), true));
    // A limit up to 1.0: the first charge. Just above: the second.
    for limit in [f64::from_bits(1), 0.5, below(1.0), 1.0] {
        assert_eq!(after(1.0, limit, 0.0, BAD), (Double(1.0), false));
        assert_eq!(after(1.0, limit, 0.0, GOOD), (Double(0.0), true));
    }
    assert_eq!(after(1.0, 1.0_f64.next_up(), 0.0, BAD), (Double(1.0), true));
    assert_eq!(after(1.0, 1.0_f64.next_up(), 1.0, BAD), (Double(2.0), false));
    assert_eq!(after(1.0, 1_000_000.0, 999_998.0, BAD), (Double(999_999.0), true));
    assert_eq!(after(1.0, 1_000_000.0, 999_999.0, BAD), (Double(1_000_000.0), false));
}

#[test]
fn the_score_freezes() {
    for score in [2.0, 2.5, 1e300, f64::MAX] {
        for (return_limit, run) in [(0, 0), (3, 1)] {
            let setup = sheet_with(0.5, 2.0, return_limit);
            let held = held(&setup, with_score(&setup, score, false), &[BAD, GOOD, BAD, GOOD]);
            assert_eq!(held, [(score, 0, false), (score, run, false), (score, 0, false), (score, run, false)]);
        }
    }
}

#[test]
fn a_returning_module_starts_at_0() {
    let setup = sheet_with(0.5, 2.0, 2);
    let held = held_from_opening(&setup, &[BAD, BAD, GOOD, GOOD, BAD, GOOD, BAD, BAD]);
    assert_eq!(
        held,
        [
            (1.0, 0, true),
            (2.0, 0, false),
            (2.0, 1, false),
            (0.0, 0, true),
            (1.0, 0, true),
            (0.5, 0, true),
            (1.5, 0, true),
            (2.5, 0, false)
        ]
    );
    // Not at minus zero.
    let mut state = with_score(&setup, 1e300, false);
    state.returns[1] = 1;
    step(&setup, &mut state, &GOOD, 15).unwrap();
    assert_eq!((state.score[1], state.view), (Double(0.0), 0b1111));
}

#[test]
fn opened_at_0() {
    let setup = sheet_with(0.5, 2.0, 3);
    assert_eq!(fresh(&setup, 3).score, [Double(0.0); MAX]);
    let mut out = vec![0xAA; 120];
    assert_eq!(Model.open(&bytes_of(&setup.words()), 3, &mut out).number, 0);
    let words: [&[u32]; 6] = [
        &[0x10000304, 0, 0x3FE00000, 0, 0x40000000, 0, 0x40880001, 0x41080001, 0x41880001, 0x42080001],
        &[0xA003000F, 0xB0C0000F, 0xB140000F, 0xB1C0000F, 0xB240000F],
        &[0xC000000F, 0xC000000F],
        &[0; 8],
        &[0xF0800000, 0xF1000000, 0xF1800000, 0xF2000000],
        &[0],
    ];
    assert_eq!(out, bytes_of(&words.concat()));
}

/// A fading script of each of the three kinds in turn.
fn fading_script(random: &mut Random, at: usize) -> Script {
    loop {
        let script = [script, careful_script, returning_script][at % 3](random);
        if script.setup.form() == Form::Fading {
            return script;
        }
    }
}

/// What the health vectors that module i answered say of module j: the health bits of the rounds in the view since opening or the last return.
struct Taken {
    bits: Vec<bool>,
    in_view: bool,
}

/// Plays the script. After each round `check` gets, for every module that holds another or itself in the view or has just put it out, its score
/// and those bits. Answers how many there were with a score over 0.
fn each_score(script: &Script, mut check: impl FnMut(Double, &[bool])) -> u32 {
    let n = script.setup.n;
    let mut scores = 0;
    let mut taken: Vec<Vec<Taken>> = Vec::new();
    taken.resize_with(n, || (0..n).map(|_| Taken { bits: Vec::new(), in_view: true }).collect());
    play_rounds(script, |backplane| {
        for (i, j) in (0..n).flat_map(|i| (0..n).map(move |j| (i, j))) {
            let (state, taken) = (&backplane.states[i], &mut taken[i][j]);
            if taken.in_view {
                taken.bits.push(has(backplane.outcomes[i].health, j + 1));
                check(state.score[j], &taken.bits);
            } else if has(state.view, j + 1) {
                taken.bits.clear();
                check(state.score[j], &[]);
            } else {
                check(state.score[j], &taken.bits);
            }
            taken.in_view = has(state.view, j + 1);
            scores += u32::from(state.score[j].0 > 0.0);
        }
        Ok(())
    })
    .unwrap();
    scores
}

#[test]
fn with_factor_1_the_score_is_the_number_of_charges() {
    let mut random = Random::new(91);
    let mut scores = 0;
    for at in 0..300 {
        let mut script = fading_script(&mut random, at);
        if let Limits::Fading { factor, .. } = &mut script.setup.limits {
            *factor = Double(1.0);
        }
        scores += each_score(&script, |score, bits| {
            let charges = bits.iter().filter(|&&healthy| !healthy).count();
            assert_eq!(score, Double(charges as f64));
        });
    }
    assert!(scores > 10_000, "{scores}");
}

#[test]
fn with_factor_0_the_score_is_the_number_of_charges_since_the_last_good_round() {
    let mut random = Random::new(92);
    let mut scores = 0;
    for at in 0..300 {
        let mut script = fading_script(&mut random, at);
        if let Limits::Fading { factor, .. } = &mut script.setup.limits {
            *factor = Double(0.0);
        }
        scores += each_score(&script, |score, bits| {
            let charges = bits.iter().rev().take_while(|&&healthy| !healthy).count();
            assert_eq!(score, Double(charges as f64));
        });
    }
    assert!(scores > 10_000, "{scores}");
}

#[test]
fn the_health_bits_in_the_view_decide_the_score() {
    let mut random = Random::new(93);
    let mut scores = 0;
    for at in 0..300 {
        let script = fading_script(&mut random, at);
        let Limits::Fading { factor, .. } = script.setup.limits else {
            unreachable!("a fading script");
        };
        scores += each_score(&script, |score, bits| {
            let again = bits.iter().fold(0.0, |score, &healthy| if healthy { score * factor.0 } else { score + 1.0 });
            assert_eq!(score, Double(again));
        });
    }
    assert!(scores > 10_000, "{scores}");
}

/// In every accepted state, and in every state that a step makes of one.
#[test]
fn below_the_limit_exactly_in_the_view() {
    let mut random = Random::new(94);
    let (mut inside, mut outside) = (0, 0);
    for _ in 0..2_000 {
        let setup = lively_setup(&mut random);
        let Limits::Fading { limit, .. } = setup.limits else {
            continue;
        };
        let mut state = state(&mut random, &setup);
        for _ in 0..5 {
            let (words, controller) = read(&mut random, &setup, &state);
            step(&setup, &mut state, &words, controller).unwrap();
            for j in 1..=setup.n {
                assert_eq!(has(state.view, j), state.score[j - 1].0 < limit.0);
                inside += u32::from(has(state.view, j));
                outside += u32::from(!has(state.view, j));
            }
            assert_eq!(Model.outgoing(&bytes_of(&image_words(&setup, &state))).number, 0);
        }
    }
    assert!(inside > 1_000 && outside > 1_000, "{inside} {outside}");
}

fn with_criticalities(setup: &Setup, random: &mut Random) -> Setup {
    let mut setup = *setup;
    for module in &mut setup.modules[..setup.n] {
        module.criticality = random.limit(100_000);
    }
    setup
}

#[test]
fn criticalities_change_nothing() {
    let mut random = Random::new(95);
    for at in 0..300 {
        let script = fading_script(&mut random, at);
        let other = Script { setup: with_criticalities(&script.setup, &mut random), ..script.clone() };
        assert_eq!(by_model(&bytes_of(&words(&script))), by_model(&bytes_of(&words(&other))));
        let mut before = reached_state(&mut random, &script.setup);
        let (read, controller) = read(&mut random, &script.setup, &before);
        let mut then = before;
        step(&script.setup, &mut before, &read, controller).unwrap();
        step(&other.setup, &mut then, &read, controller).unwrap();
        assert_eq!(before, then);
    }
}

/// The same script with other limits, criticality 1 and no returns.
fn with_limits(script: &Script, limits: Limits) -> Script {
    let mut setup = Setup { limits, return_limit: 0, ..script.setup };
    setup.modules.iter_mut().for_each(|module| module.criticality = 1);
    Script { setup, ..script.clone() }
}

/// Counts that are never cleared are those of factor 1, and counts that one good round clears those of factor 0, where the limit is P + 1.
#[test]
fn fading_beside_counts() {
    let mut random = Random::new(96);
    let mut left = 0;
    for at in 0..600 {
        let script = [script, careful_script, returning_script][at % 3](&mut random);
        let p = random.between(1, 4);
        for (factor, reward) in [(1.0, 8_000_000), (0.0, 1)] {
            let [counts, fading] = [Limits::Counts { penalty: p, reward }, Limits::fading(factor, f64::from(p) + 1.0)]
                .map(|limits| by_model(&bytes_of(&words(&with_limits(&script, limits)))));
            assert_eq!(counts, fading);
            left += u32::from(counts.lines().any(|line| line.split(' ').nth(3).unwrap().contains('0')));
        }
    }
    assert!(left > 200, "{left}");
}

/// An image goes in and comes out with every bit, and read it gives the state.
#[test]
fn an_image_holds_the_bits_of_every_score() {
    let mut random = Random::new(97);
    let mut fading = 0;
    for at in 0..2_000 {
        let setup = if at % 2 == 0 { lively_setup(&mut random) } else { random_setup(&mut random) };
        let state = if at % 3 == 0 { reached_state(&mut random, &setup) } else { state(&mut random, &setup) };
        let image = bytes_of(&image_words(&setup, &state));
        assert_eq!(image.len(), 4 * setup.image_length());
        assert_eq!(read_image(&image), Ok((setup, state)));
        let mut out = vec![0xAA; image.len()];
        assert_eq!(Model.save(&image, &mut out).number, 0);
        assert_eq!(out, image);
        fading += u32::from(setup.form() == Form::Fading);
    }
    assert!(fading > 500, "{fading}");
}

/// A pair for each module in turn, the high half first.
#[test]
fn scores_as_two_plain_words() {
    let setup = sheet_with(0.5, 2.0, 0);
    let mut state = fresh(&setup, 1);
    for (score, value) in state.score.iter_mut().zip([1.0, 0.1, f64::from_bits(1), 1.5]) {
        *score = Double(value);
    }
    let words = image_words(&setup, &state);
    assert_eq!(words[17..25], [0x3FF00000, 0, 0x3FB99999, 0x9999999A, 0, 1, 0x3FF80000, 0]);
}

#[test]
fn the_bench_plays_it() {
    // 2 is charged in steps 2 and 3 with nothing between: 1.0 and 2.0, the limit.
    let setup = sheet_with(0.5, 2.0, 0).words();
    let lines = |tail: &[u32]| common::run_both(&bytes_of(&[&setup[..], tail].concat()));
    let out = lines(&[NO_CAST, loss(2, 15), play(1), loss(2, 15), play(2)]);
    assert_eq!(out, common::same_lines(4, &[("1111", "1111", "in"), ("1011", "1111", "in"), ("1011", "1011", "in")]));
    // With a good round between: 1.0, 0.5, 1.5.
    let stays = lines(&[NO_CAST, loss(2, 15), play(2), loss(2, 15), play(2)]);
    assert!(stays.ends_with("4 4 1011 1111 in\n"));
}
