//! Time of one step of model and library on the same life, as C calls it: image in, image out.
//! Usage: time_step [STEPS]

use harness::ffi::Library;
use harness::model::calls::{Functions, Model};
use harness::model::setup::{Limits, Setup};
use harness::model::state::{fresh, image_words};
use harness::model::step::step;
use harness::model::words::bytes_of;
use harness::random::reads::read;
use harness::random::setups::setup_of;
use harness::random::Random;
use std::env;
use std::hint::black_box;
use std::process::ExitCode;
use std::time::Instant;

const RUNS: usize = 15;

/// A life: the first image and all reads.
struct Life {
    opened: Vec<u8>,
    reads: Vec<(Vec<u8>, u32)>,
}

fn main() -> ExitCode {
    let steps: usize = match env::args().nth(1).map(|text| text.parse()) {
        None => 10_000,
        Some(Ok(steps)) if steps > 0 => steps,
        _ => {
            eprintln!("usage: time_step [STEPS]");
            return ExitCode::from(2);
        }
    };
    println!("{steps} steps a run, {RUNS} runs; setups, reads and both image buffers are prepared before");
    println!("timing, so a time holds the calls alone; nanoseconds a step, median (and fastest run)");
    println!(" N u            model          library   library/model");
    for n in [2, 4, 8, 16] {
        for u in [0, 1] {
            let life = life(n, u, steps);
            let mut by_model = Vec::new();
            let mut by_library = Vec::new();
            // The runs alternate, so that both meet the same load of the machine.
            for _ in 0..RUNS {
                let (model, last_of_model) = run(&Model, &life);
                let (library, last_of_library) = run(&Library, &life);
                if last_of_model != last_of_library {
                    println!("N = {n}, u = {u}: the last images differ");
                    return ExitCode::FAILURE;
                }
                by_model.push(model);
                by_library.push(library);
            }
            let (model, model_least) = median_and_least(by_model, steps);
            let (library, library_least) = median_and_least(by_library, steps);
            println!(
                "{n:2} {u} {model:7.0} ({model_least:6.0}) {library:7.0} ({library_least:6.0}) {:8.2} ({:.2})",
                library / model,
                library_least / model_least
            );
        }
    }
    ExitCode::SUCCESS
}

/// Losses and lies as in the random reads; limits that keep all modules in the view.
fn life(n: usize, u: usize, steps: usize) -> Life {
    let mut random = Random::new((100 * n + u) as u64);
    let limits = Limits::Counts { penalty: 1_000_000, reward: 8 };
    let mut setup = Setup { limits, partitionable: false, ..setup_of(&mut random, n, u) };
    for module in &mut setup.modules[..n] {
        module.criticality = 1;
    }
    let mut state = fresh(&setup, n);
    let opened = bytes_of(&image_words(&setup, &state));
    let mut reads = Vec::with_capacity(steps);
    for _ in 0..steps {
        let (words, controller) = read(&mut random, &setup, &state);
        step(&setup, &mut state, &words, controller).expect("a made read is accepted");
        reads.push((bytes_of(&words), controller));
    }
    Life { opened, reads }
}

/// Nanoseconds of all steps, and the last image.
fn run(functions: &dyn Functions, life: &Life) -> (f64, Vec<u8>) {
    let mut image = life.opened.clone();
    let mut out = vec![0; image.len()];
    let begin = Instant::now();
    for (read, controller) in &life.reads {
        let answer = functions.step(&image, read, *controller, &mut out);
        assert_eq!(answer.number, 0, "a step of the life is accepted");
        std::mem::swap(&mut image, &mut out);
    }
    let time = begin.elapsed().as_nanos() as f64;
    (time, black_box(image))
}

/// A step's time in the median run and in the fastest one.
fn median_and_least(mut times: Vec<f64>, steps: usize) -> (f64, f64) {
    times.sort_by(f64::total_cmp);
    (times[times.len() / 2] / steps as f64, times[0] / steps as f64)
}
