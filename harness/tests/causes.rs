//! Document 02, E5, sentence by sentence, on the model: answers written after its text.

mod common;

use common::{setup, SHEET};
use harness::model::calls::{CauseAnswer, Functions, Model};
use harness::model::state::{fresh, image_words, Entry, State};
use harness::model::step::{read_word, step, Reading};
use harness::model::words::bytes_of;
use harness::script::backplane::{add_event, Backplane, Event, NO_EVENTS};
use harness::script::limit::Hearing;

/// N = 4 with module 4 at l = 2, so u = 1; the others at l = 4.
const EARLY: [u32; 7] = [0x10000004, 0x20000001, 0x30000003, 0x40880001, 0x41080001, 0x41880001, 0x42040001];

const FOUR_ONES: [u32; 4] = [0x5000000F; 4];

#[test]
fn reading_a_word_answers_one_of_four() {
    assert_eq!(read_word(4, true, 0x5000000A), Reading::Heard { row: 0b1010 });
    assert_eq!(read_word(4, false, 0x5000000A), Reading::ControllerLoss);
    assert_eq!(read_word(4, true, 0x4000000A), Reading::WrongKind);
    assert_eq!(read_word(4, true, 0x5000001A), Reading::StrayBits);
    // Every bit from N to 27 is a stray one, every bit below N is of the row.
    for n in 2..=16 {
        for bit in 0..28 {
            let wanted = if bit < n { Reading::Heard { row: 1 << bit } } else { Reading::StrayBits };
            assert_eq!(read_word(n, true, 5 << 28 | 1 << bit), wanted);
        }
    }
}

#[test]
fn the_first_that_applies() {
    for word in [0x5000000F, 0x5000001F, 0x4000000F, 0x4000001F, 0, u32::MAX] {
        assert_eq!(read_word(4, false, word), Reading::ControllerLoss);
    }
    for kind in (0..16).filter(|&kind| kind != 5) {
        assert_eq!(read_word(4, true, kind << 28 | 0x1F), Reading::WrongKind);
    }
}

#[test]
fn coded_0_to_3() {
    let answers = [Reading::Heard { row: 15 }, Reading::ControllerLoss, Reading::WrongKind, Reading::StrayBits];
    assert_eq!(answers.map(Reading::cause), [0, 1, 2, 3]);
}

/// A step of module 1 of the sheet gives the entry and the cause of each sender.
#[test]
fn a_step_takes_the_answer() {
    let setup = setup(&SHEET);
    let mut state = fresh(&setup, 1);
    let outcome = step(&setup, &mut state, &[0x5000000F, 0x5000001F, 0x4000000F, 0x5000000F], 0b0111).unwrap();
    assert_eq!(outcome.causes, [0, 3, 2, 1, 0, 0, 0, 0, 0, 0, 0, 0, 0, 0, 0, 0]);
    let missing = Entry { heard: false, row: 0 };
    assert_eq!(state.previous[..4], [Entry { heard: true, row: 15 }, missing, missing, missing]);
}

/// Which cause it was decides nothing: states and health are the same.
#[test]
fn missing_is_missing() {
    let setup = setup(&SHEET);
    let by_cause = [(0x5000000F, 0b1101), (0x9000000F, 0b1111), (0x5000010F, 0b1111)].map(|(word, controller)| {
        let mut state = fresh(&setup, 1);
        let outcome = step(&setup, &mut state, &[0x5000000F, word, 0x5000000D, 0x5000000D], controller).unwrap();
        (outcome.health, outcome.syndrome, state)
    });
    assert_eq!(by_cause[0], by_cause[1]);
    assert_eq!(by_cause[0], by_cause[2]);
}

/// The page after a step of this state on this page.
fn page_after(setup_words: &[u32], state: &State, read: &[u32], controller: u32, page: &[u32; 16]) -> Vec<u32> {
    let image = bytes_of(&image_words(&setup(setup_words), state));
    let mut out = vec![0; image.len()];
    let mut page = bytes_of(page);
    let answer = Model.page_step(&image, &bytes_of(read), controller, &mut out, &mut page);
    assert_eq!(answer.number, 0);
    page.chunks(4).map(|four| u32::from_be_bytes(four.try_into().unwrap())).collect()
}

const OPENED: [u32; 16] = [15, 15, 0, 0, 0, 0, 0, 0, 0, 0, 0, 0, 0, 0, 0, 0];

#[test]
fn words_4_to_7_hold_four_modules_each_module_1_topmost() {
    let words = [0x10000010, 0x20000001, 0x30000003];
    let modules = (1..=16).map(|j| 0x40000001 | j << 23 | 16 << 17);
    let sixteen: Vec<u32> = words.into_iter().chain(modules).collect();
    let opened = [0xFFFF, 0xFFFF, 0, 0, 0, 0, 0, 0, 0, 0, 0, 0, 0, 0, 0, 0];
    let state = fresh(&setup(&sixteen), 7);
    for j in 0..16 {
        for (cause, word, controller) in [(1, 0x5000FFFF, 0xFFFF ^ 1 << j), (2, 0x6000FFFF, 0xFFFF), (3, 0x5001FFFF, 0xFFFF)] {
            let mut read = [0x5000FFFF; 16];
            read[j] = word;
            let mut wanted = [0; 4];
            wanted[j / 4] = cause << [24, 16, 8, 0][j % 4];
            assert_eq!(page_after(&sixteen, &state, &read, controller, &opened)[4..8], wanted);
        }
    }
}

#[test]
fn modules_above_n_have_0_and_every_step_writes_all_four_words() {
    let state = fresh(&setup(&SHEET), 1);
    let mut page = OPENED;
    page[4..].copy_from_slice(&[u32::MAX; 12]);
    let after = page_after(&SHEET, &state, &[0x5000000F, 0, 0x5000000F, 0x5800000F], 0b1110, &page);
    assert_eq!(after[4..8], [0x01020003, 0, 0, 0]);
    assert_eq!(after[8..], [u32::MAX; 8]);
    assert_eq!(page_after(&SHEET, &state, &FOUR_ONES, 15, &page)[4..8], [0, 0, 0, 0]);
}

#[test]
fn the_last_read_as_it_came() {
    // Module 4 votes with the rows of 1 and 2 of the read before. Module 1 is lost in this read: its cause, though it is heard after alignment.
    let early = setup(&EARLY);
    let mut state = fresh(&early, 4);
    assert_eq!(page_after(&EARLY, &state, &FOUR_ONES, 0b1110, &OPENED)[4], 0x01000000);
    let outcome = step(&early, &mut state, &FOUR_ONES, 0b1110).unwrap();
    assert_eq!((outcome.causes[0], outcome.syndrome), (1, 0b1111));
    // In the next read it is heard: no cause, though it is missing after alignment.
    assert_eq!(page_after(&EARLY, &state, &FOUR_ONES, 15, &OPENED)[4], 0);
    let outcome = step(&early, &mut state, &FOUR_ONES, 15).unwrap();
    assert_eq!((outcome.causes[0], outcome.syndrome), (0, 0b1110));
}

#[test]
fn opened_all_0() {
    let mut out = [0; 108];
    let mut page = [0xAB; 64];
    assert_eq!(Model.page_open(&bytes_of(&SHEET), 1, &mut out, &mut page).number, 0);
    assert_eq!(page[16..32], [0; 16]);
}

#[test]
fn a_refused_step_leaves_the_causes() {
    let image = bytes_of(&image_words(&setup(&SHEET), &fresh(&setup(&SHEET), 1)));
    let (mut out, mut page) = ([0; 108], [0x77; 64]);
    assert_eq!(Model.page_step(&image, &bytes_of(&[0; 4]), 16, &mut out, &mut page).number, 10);
    assert_eq!(page, [0x77; 64]);
}

/// On the bench: a loss, a told word of another kind, one with stray bits, one that is heard.
#[test]
fn the_bench_takes_the_answer() {
    let mut backplane = Backplane::new(&setup(&SHEET), 0b1110);
    let mut events = NO_EVENTS;
    add_event(&mut events, 1, 0b0001, Event::Loss);
    add_event(&mut events, 2, 0b0001, Event::Lie { told: 0x7000000F, told_view: 0 });
    add_event(&mut events, 3, 0b0001, Event::Lie { told: 0x5000002F, told_view: 0 });
    add_event(&mut events, 4, 0b0001, Event::Lie { told: 0x50000003, told_view: 0 });
    backplane.play_round(&events);
    assert_eq!(backplane.outcomes[0].causes[..4], [1, 2, 3, 0]);
    assert_eq!(backplane.outcomes[1].causes[..4], [0, 0, 0, 0]);
    backplane.play_round(&NO_EVENTS);
    assert_eq!(backplane.outcomes[0].causes[..4], [0, 0, 0, 0]);
}

/// For the fault limit too: who is missing at all rule-followers is unheard and not half heard, whatever the causes.
#[test]
fn the_limit_does_not_ask_for_causes() {
    let mut backplane = Backplane::new(&setup(&SHEET), 0b1000);
    let mut events = NO_EVENTS;
    add_event(&mut events, 4, 0b0001, Event::Loss);
    add_event(&mut events, 4, 0b0010, Event::Lie { told: 0x7000000F, told_view: 0 });
    add_event(&mut events, 4, 0b0100, Event::Lie { told: 0x5000002F, told_view: 0 });
    backplane.play_round(&events);
    assert_eq!(backplane.hearings[0], Hearing { half_heard: 0, unheard: 0b1000 });
}

fn answered(cause: u32, row: u32) -> CauseAnswer {
    CauseAnswer { number: 0, index: 0, cause, row }
}

fn refused(number: u32) -> CauseAnswer {
    CauseAnswer { number, index: 0, cause: 0, row: 0 }
}

#[test]
fn the_call_from_c() {
    assert_eq!(Model.read_cause(4, 1, 0x50000000), answered(0, 0));
    assert_eq!(Model.read_cause(4, 1, 0x5000000F), answered(0, 15));
    assert_eq!(Model.read_cause(3, 1, 0x5000000F), answered(3, 0));
    assert_eq!(Model.read_cause(4, 1, 0xA000000F), answered(2, 0));
    assert_eq!(Model.read_cause(4, 0, 0x5000000F), answered(1, 0));
    for n in [0, 1, 17, 20, 258, u32::MAX] {
        for controller in [0, 1, 2] {
            assert_eq!(Model.read_cause(n, controller, 0x50000000), refused(2));
        }
    }
    for controller in [2, 3, 256, u32::MAX] {
        assert_eq!(Model.read_cause(2, controller, 0x50000000), refused(10));
        assert_eq!(Model.read_cause(16, controller, 0x50000000), refused(10));
    }
}
