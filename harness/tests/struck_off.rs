//! Document 02, E4, sentence by sentence, on the model: answers written after its text.

mod common;

use common::{setup, SHEET};
use harness::model::setup::Setup;
use harness::model::state::{fresh, State};
use harness::model::step::{step, Outcome};
use harness::script::limit::{kept, Hearing};

/// Module 1 of the sheet with this view, whose other modules have a penalty above P.
fn with_view(setup: &Setup, view: u32) -> State {
    let mut state = State { view, ..fresh(setup, 1) };
    for j in 0..4 {
        state.penalty[j] = if view >> j & 1 == 1 { 0 } else { 2 };
    }
    state
}

/// A step of it on these rows, all heard.
fn judged(view: u32, rows: [u32; 4]) -> (Outcome, State) {
    let setup = setup(&SHEET);
    let mut state = with_view(&setup, view);
    let outcome = step(&setup, &mut state, &rows.map(|row| 0x50000000 | row), 15).unwrap();
    (outcome, state)
}

#[test]
fn a_row_outside_the_view_neither_votes_nor_is_accused() {
    // On module 1 the rows of 3 and 4 are 1 and 0, equal: 1. With that of module 2 they are 1, 0, 0.
    let rows = [15, 0b0110, 15, 0b1110];
    let (outcome, _) = judged(0b1101, rows);
    assert_eq!(outcome.health, 0b1111);
    // Row 2 differs from it at 1, row 4 too; only that of 4 is accused. Module 2 was heard, so its bit is set.
    assert_eq!(outcome.accused[..4], [0, 0, 0, 1]);
    assert_eq!(outcome.syndrome, 0b0111);

    let (outcome, _) = judged(0b1111, rows);
    assert_eq!(outcome.health, 0b1110);
    assert_eq!(outcome.accused[..4], [0, 4, 1, 0]);
    assert_eq!(outcome.syndrome, 0b1001);
}

#[test]
fn others_still_vote_on_it() {
    let (outcome, _) = judged(0b1101, [0b1101, 15, 0b1101, 15]);
    assert_eq!(outcome.health, 0b1101);
    let (outcome, _) = judged(0b1101, [15, 0b1101, 15, 15]);
    assert_eq!(outcome.health, 0b1111);
}

#[test]
fn where_nobody_else_is_in_the_view_the_own_syndrome_decides() {
    // Only module 3 is in the view: the vote on it is empty, the votes on the others are its row.
    let setup = setup(&SHEET);
    let mut state = State { latest: 0b0000, ..with_view(&setup, 0b0100) };
    let outcome = step(&setup, &mut state, &[0x5000000F; 4], 15).unwrap();
    assert_eq!(outcome.health, 0b1011);
}

#[test]
fn the_view_held_at_the_end_of_the_round_before_decides() {
    // Module 2 leaves in this step; its row counted in it: 1, 0, 0 on module 1.
    let setup = setup(&SHEET);
    let mut state = fresh(&setup, 1);
    state.penalty[1] = 1;
    let read = [0x5000000D, 0x5000000E, 0x5000000D, 0x5000000C];
    let outcome = step(&setup, &mut state, &read, 15).unwrap();
    assert_eq!(outcome.health, 0b1100);
    assert_eq!(state.view, 0b1101);
}

/// How the rule-followers heard a round: these senders half heard, these unheard.
fn heard(half_heard: u32, unheard: u32) -> Hearing {
    Hearing { half_heard, unheard }
}

#[test]
fn the_limit_takes_n_s_and_b_over_the_view_and_a_over_all() {
    let all = heard(0, 0);
    // One half heard: N > 3, of the modules in the view.
    assert!(kept(4, 0, 0b1111, &heard(0b0001, 0), &all));
    assert!(!kept(4, 0, 0b1101, &heard(0b0001, 0), &all));
    assert!(kept(5, 0, 0b11101, &heard(0b0001, 0), &all));
    assert!(!kept(4, 0, 0b0101, &heard(0b0001, 0), &all));
    // A struck-off module that is unheard is not in b, and one that breaks the rules not in s.
    assert!(kept(5, 0, 0b11101, &heard(0b0001, 0b0010), &all));
    assert!(kept(5, 0b0010, 0b11101, &heard(0b0001, 0), &all));
    assert!(!kept(5, 0, 0b11101, &heard(0b0001, 0b0100), &all));
    assert!(!kept(5, 0b0100, 0b11101, &heard(0b0001, 0), &all));
    // A struck-off module that is half heard is in a.
    assert!(!kept(4, 0, 0b1101, &heard(0b0010, 0), &all));
    assert!(kept(5, 0, 0b11101, &heard(0b0010, 0), &all));
    assert!(!kept(6, 0, 0b111101, &heard(0b0011, 0), &all));
    // Nobody in the view: kept only where nobody is half heard.
    assert!(kept(4, 0, 0, &heard(0, 15), &heard(0, 15)));
    assert!(!kept(4, 0, 0, &heard(0b0001, 0), &all));
}
