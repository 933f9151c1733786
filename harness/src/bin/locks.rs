//! The scan lock: the model by history and the library, on lines of calls and on random histories.
//! Usage: locks FILE..              every line, both sides
//!        locks --random COUNT SEED COUNT histories, and calls on damaged images between their events
//! The library is asked from image to image; each image is compared byte for byte with the one made from the history.

use harness::lock::event::Event;
use harness::lock::ffi::{joystick, open, tell, Answer};
use harness::lock::history::History;
use harness::lock::image::{check, image_of, IMAGE_BYTES};
use harness::lock::line::Line;
use harness::lock::random::Crowd;
use harness::random::Random;
use std::collections::BTreeMap;
use std::env;
use std::fs;
use std::process::{exit, ExitCode};

fn main() -> ExitCode {
    let arguments: Vec<String> = env::args().skip(1).collect();
    if let [option, count, seed] = arguments.as_slice() {
        if let ("--random", Ok(count), Ok(seed)) = (option.as_str(), count.parse(), seed.parse()) {
            return random_histories(count, seed);
        }
    }
    if arguments.is_empty() || arguments[0].starts_with('-') {
        eprintln!("usage: locks FILE.. | locks --random COUNT SEED");
        return ExitCode::from(2);
    }
    let mut lines = 0;
    for path in &arguments {
        let text = fs::read_to_string(path).unwrap_or_else(|error| fail(&format!("{path}: {error}")));
        let before = lines;
        for (at, text) in text.lines().enumerate() {
            let line = Line::parse(text).unwrap_or_else(|error| fail(&format!("{path}, line {}: {error}", at + 1)));
            if let Some(line) = line {
                run(&line).unwrap_or_else(|found| fail(&format!("{path}, line {}: {found}: {text}", at + 1)));
                lines += 1;
            }
        }
        if lines == before {
            fail(&format!("{path}: no line"));
        }
    }
    println!("locks: {lines} lines, history and library, 0 differences");
    ExitCode::SUCCESS
}

fn fail(text: &str) -> ! {
    println!("locks: {text}");
    exit(1)
}

/// One line through both sides.
fn run(line: &Line) -> Result<(), String> {
    let mut pair = Pair::new(line.n)?;
    for (at, (&event, &(number, live))) in line.events.iter().zip(&line.answers).enumerate() {
        let found = pair.tell(event)?;
        if found != (number, live) {
            return Err(format!("event {}: answered {found:?}", at + 1));
        }
    }
    Ok(())
}

/// A history and the library's image, told the same.
struct Pair {
    history: History,
    image: Vec<u8>,
}

impl Pair {
    fn new(n: u32) -> Result<Pair, String> {
        let history = History::new(n);
        let mut image = vec![0xAA; IMAGE_BYTES];
        let answer = open(n, &mut image);
        same(answer, Answer { number: 0, index: 0, joystick: 1 }, "opening")?;
        let pair = Pair { history, image };
        pair.compare()?;
        Ok(pair)
    }

    /// Number and joystick, the same on both sides.
    fn tell(&mut self, event: Event) -> Result<(u32, bool), String> {
        let number = self.history.tell(event);
        let live = self.history.joystick();
        let mut out = vec![0x55; IMAGE_BYTES];
        let answer = tell(&self.image, event, &mut out);
        same(answer, Answer { number, index: 0, joystick: live as u32 }, &format!("{event:?}"))?;
        if number == 0 {
            self.image = out;
        } else if out != [0x55; IMAGE_BYTES] {
            return Err(format!("{event:?} is refused and writes"));
        }
        self.compare()?;
        Ok((number, live))
    }

    fn compare(&self) -> Result<(), String> {
        if self.image != image_of(&self.history) {
            return Err(format!("images differ: {:02x?}", self.image));
        }
        let live = self.history.joystick() as u32;
        same(joystick(&self.image), Answer { number: 0, index: 0, joystick: live }, "joystick")
    }
}

fn same(found: Answer, right: Answer, what: &str) -> Result<(), String> {
    if found == right {
        Ok(())
    } else {
        Err(format!("{what}: the library answers {found:?}, not {right:?}"))
    }
}

fn random_histories(count: u64, seed: u64) -> ExitCode {
    let mut random = Random::new(seed);
    let mut numbers: BTreeMap<u32, u64> = BTreeMap::new();
    let (mut live, mut told) = (0u64, 0u64);
    for at in 0..count {
        let crowd = Crowd::any(&mut random);
        let result = Pair::new(crowd.n).and_then(|mut pair| {
            for _ in 0..random.between(1, 60) {
                let event = crowd.event(&mut random);
                let (number, joystick) = pair.tell(event)?;
                *numbers.entry(number).or_insert(0) += 1;
                live += joystick as u64;
                told += 1;
                if random.chance(1, 4) {
                    let number = damaged(&mut random, &pair.image, event)?;
                    *numbers.entry(number).or_insert(0) += 1;
                }
            }
            Ok(())
        });
        if let Err(found) = result {
            fail(&format!("history {at}, seed {seed}: {found}"));
        }
    }
    wrong_openings();
    let counts: Vec<String> = numbers.iter().map(|(number, count)| format!("{number}:{count}")).collect();
    println!("answers by number {}", counts.join(" "));
    println!("locks: {count} histories, {told} events ({live} with the joystick live), seed {seed}: all equal");
    let all = [0, 1, 2, 3, 8, 9, 19, 20, 21];
    if count < 1000 || all.iter().all(|number| numbers.contains_key(number)) {
        ExitCode::SUCCESS
    } else {
        fail("some number was never answered")
    }
}

/// A call on a damaged image, or with an output of a wrong length: the number, which the check of the image gives first.
fn damaged(random: &mut Random, image: &[u8], event: Event) -> Result<u32, String> {
    let mut bytes = image.to_vec();
    match random.below(6) {
        0 => bytes.truncate(random.below(IMAGE_BYTES)),
        1 => bytes.extend([0; 4]),
        2 => bytes[random.below(4)] ^= 1 << random.below(8),
        3 => {}
        _ => bytes[4 + random.below(32)] ^= 1 << random.below(8),
    }
    let mut out = vec![0x33; if random.chance(1, 3) { random.below(80) } else { IMAGE_BYTES }];
    let before = out.clone();
    let (number, index) = check(&bytes);
    let answer = tell(&bytes, event, &mut out);
    let asked = joystick(&bytes);
    if number != 0 || out.len() != IMAGE_BYTES {
        let number = if number == 0 { 9 } else { number };
        same(answer, Answer { number, index, joystick: 0 }, &format!("{event:?} on {bytes:02x?}"))?;
        if out != before {
            return Err(format!("{event:?} on {bytes:02x?} is refused and writes"));
        }
        if number != 9 {
            same(asked, Answer { number, index, joystick: 0 }, "joystick")?;
        }
        return Ok(number);
    }
    // accepted after all: the image that comes out is accepted again
    if answer.number == 0 && check(&out) != (0, 0) {
        return Err(format!("{event:?} on {bytes:02x?} writes an image that is refused"));
    }
    Ok(answer.number)
}

/// Openings with another number of modules, and with another output.
fn wrong_openings() {
    for n in [0, 1, 2, 3, 15, 16, 17, 18, 32, 33, u32::MAX] {
        for length in [0, 4, 32, 35, 36, 37, 40] {
            let mut out = vec![0x77; length];
            let number = if !(2..=16).contains(&n) { 2 } else if length != IMAGE_BYTES { 9 } else { 0 };
            let right = Answer { number, index: 0, joystick: (number == 0) as u32 };
            if open(n, &mut out) != right || (number != 0 && out.iter().any(|&byte| byte != 0x77)) {
                fail(&format!("opening of {n} modules into {length} bytes"));
            }
        }
    }
}
