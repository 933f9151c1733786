//! What the tests share: the sheet's words, and a run by the model and by the player.
#![allow(dead_code)]

use harness::model::setup::{read_setup, Holds, Setup};
use harness::model::words::bytes_of;
use harness::script::program::output_of;
use harness::script::run;

/// N = 4, P = 1, R = 3, criticality 1, all l = 4.
pub const SHEET: [u32; 7] =
    [0x10000004, 0x20000001, 0x30000003, 0x40880001, 0x41080001, 0x41880001, 0x42080001];

/// The sheet with fading, factor 1/2 and limit 2.0: the modules from word 6 on.
pub const FADING_SHEET: [u32; 10] =
    [0x10000004, 0, 0x3FE00000, 0, 0x40000000, 0, 0x40880001, 0x41080001, 0x41880001, 0x42080001];

/// N = 3 with the limits of the sheet, all l = 3.
pub const SHEET_OF_THREE: [u32; 6] = [0x10000003, 0x20000001, 0x30000003, 0x40860001, 0x41060001, 0x41860001];

pub const NO_CAST: u32 = 0x60000000;

pub fn setup(words: &[u32]) -> Setup {
    read_setup(&bytes_of(words), Holds::Setup).expect("the setup is accepted").0
}

pub fn loss(sender: u32, receivers: u32) -> u32 {
    7 << 28 | sender << 23 | receivers
}

pub fn lie(sender: u32, receivers: u32) -> u32 {
    8 << 28 | sender << 23 | receivers
}

pub fn play(rounds: u32) -> u32 {
    9 << 28 | rounds
}

/// A setup, then the other words.
pub fn script(setup: &[u32], tail: &[u32]) -> Vec<u8> {
    bytes_of(&[setup, tail].concat())
}

pub fn by_model(bytes: &[u8]) -> String {
    let mut out = Vec::new();
    run(bytes, &mut out).unwrap();
    String::from_utf8(out).unwrap()
}

pub fn by_player(bytes: &[u8]) -> String {
    String::from_utf8(output_of(env!("CARGO_BIN_EXE_player"), bytes).unwrap()).unwrap()
}

/// The output of model and player, which must be the same.
pub fn run_both(bytes: &[u8]) -> String {
    let output = by_model(bytes);
    assert_eq!(output, by_player(bytes));
    output
}

/// Lines of a run in which all modules print the same: one (health, view, limit) a round.
pub fn same_lines(n: usize, rounds: &[(&str, &str, &str)]) -> String {
    let mut text = String::new();
    for (at, (health, view, limit)) in rounds.iter().enumerate() {
        for j in 1..=n {
            text.push_str(&format!("{} {j} {health} {view} {limit}\n", at + 1));
        }
    }
    text
}
