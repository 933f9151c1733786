//! The bench: a run script in, lines out.

use super::backplane::{add_event, Backplane, Event, Events, NO_EVENTS};
use super::check::{check, Item, Script};
use crate::model::words::has;
use std::io::{self, Write};

/// Plays the script and writes its lines, or `refused N at W`.
pub fn run(bytes: &[u8], out: &mut impl Write) -> io::Result<()> {
    match check(bytes) {
        Ok(script) => play(&script, out),
        Err(refused) => writeln!(out, "refused {} at {}", refused.number, refused.index),
    }
}

fn play(script: &Script, out: &mut impl Write) -> io::Result<()> {
    let mut lines = Vec::new();
    play_rounds(script, |backplane| {
        lines.clear();
        round_lines(backplane, &mut lines);
        out.write_all(&lines)
    })
}

/// Plays the script and calls `after_round` after each round.
pub fn play_rounds(
    script: &Script,
    mut after_round: impl FnMut(&Backplane) -> io::Result<()>,
) -> io::Result<()> {
    let mut backplane = Backplane::new(&script.setup, script.cast);
    each_round(script, |events| {
        backplane.play_round(events);
        after_round(&backplane)
    })
}

/// Calls `play_round` for each round in turn, with its events. Events count for the next round played and for no other.
pub fn each_round<E>(script: &Script, mut play_round: impl FnMut(&Events) -> Result<(), E>) -> Result<(), E> {
    let mut events: Events = NO_EVENTS;
    for item in &script.items {
        match *item {
            Item::Loss { sender, receivers } => add_event(&mut events, sender, receivers, Event::Loss),
            Item::Lie { sender, receivers, told, told_view } => {
                add_event(&mut events, sender, receivers, Event::Lie { told, told_view: told_view.unwrap_or(0) })
            }
            Item::Play { rounds } => {
                play_round(&events)?;
                events = NO_EVENTS;
                for _ in 1..rounds {
                    play_round(&NO_EVENTS)?;
                }
            }
        }
    }
    Ok(())
}

/// One line a module: round, module, health, the view that it shows, `in` or `out`.
fn round_lines(backplane: &Backplane, lines: &mut Vec<u8>) {
    let n = backplane.setup.n;
    let round = backplane.round.to_string();
    let limit: &[u8] = if backplane.kept_so_far { b" in\n" } else { b" out\n" };
    for j in 1..=n {
        lines.extend_from_slice(round.as_bytes());
        lines.push(b' ');
        if j >= 10 {
            lines.push(b'1');
        }
        lines.push(b'0' + (j % 10) as u8);
        lines.push(b' ');
        push_vector(n, backplane.outcomes[j - 1].health, lines);
        lines.push(b' ');
        push_vector(n, backplane.states[j - 1].shown(), lines);
        lines.extend_from_slice(limit);
    }
}

/// Module 1 stands leftmost.
fn push_vector(n: usize, vector: u32, lines: &mut Vec<u8>) {
    for j in 1..=n {
        lines.push(if has(vector, j) { b'1' } else { b'0' });
    }
}
