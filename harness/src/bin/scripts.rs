//! Runs a bench program on run scripts and compares with the model byte for byte.
//! Usage: scripts COUNT SEED BENCH
//!        scripts --dir DIR BENCH    (all NNN.bin with NNN.out of a folder, also against the model)
//!        scripts --long BENCH       (100,000 rounds exactly; too many lines to keep in a file)

use harness::random::reached::Reached;
use harness::random::scripts::{long_runs, script_bytes, WAYS};
use harness::random::Random;
use harness::script::program::output_of;
use harness::script::run;
use std::env;
use std::fs;
use std::path::PathBuf;
use std::process::ExitCode;
use std::thread;

fn main() -> ExitCode {
    let arguments: Vec<String> = env::args().skip(1).collect();
    let result = match arguments.iter().map(String::as_str).collect::<Vec<_>>().as_slice() {
        ["--dir", folder, bench] => run_folder(folder, bench),
        ["--long", bench] => run_long(bench),
        [count, seed, bench] => match (count.parse(), seed.parse()) {
            (Ok(count), Ok(seed)) => run_random(count, seed, bench),
            _ => usage(),
        },
        _ => usage(),
    };
    match result {
        Ok(()) => ExitCode::SUCCESS,
        Err(error) => {
            println!("scripts: {error}");
            ExitCode::FAILURE
        }
    }
}

fn usage() -> Result<(), String> {
    Err("usage: scripts COUNT SEED BENCH, or scripts --dir DIR BENCH, or scripts --long BENCH".to_string())
}

fn run_random(count: usize, seed: u64, bench: &str) -> Result<(), String> {
    let mut random = Random::new(seed);
    let mut reached = Reached::default();
    for at in 0..count {
        let bytes = script_bytes(&mut random, at % WAYS);
        let (wanted, found) = by_both(bench, &bytes)?;
        if found != wanted {
            let path = env::temp_dir().join(format!("scripts-{seed}-{at}.bin"));
            let kept = match fs::write(&path, &bytes) {
                Ok(()) => format!("script kept in {}", path.display()),
                Err(error) => format!("script not kept: {error}"),
            };
            return Err(format!(
                "DIFFERENCE at script {at}, seed {seed}; {kept}\n{}",
                first_difference(&wanted, &found)
            ));
        }
        reached.add(&bytes, &wanted);
    }
    println!("scripts by what they reach:\n{}", reached.report().trim_end());
    let never = reached.never();
    if !never.is_empty() {
        println!("  never: {}", never.join("; "));
    }
    println!("scripts: {count} scripts, seed {seed}: all equal");
    Ok(())
}

fn run_long(bench: &str) -> Result<(), String> {
    for (name, bytes) in long_runs() {
        let (wanted, found) = by_both(bench, &bytes)?;
        if found != wanted {
            return Err(format!("DIFFERENCE in {name}\n{}", first_difference(&wanted, &found)));
        }
        if !wanted.starts_with(b"1 1 ") || wanted.iter().filter(|byte| **byte == b'\n').count() != 200_000 {
            return Err(format!("{name}: not 100,000 rounds of two modules"));
        }
        println!("scripts: {name}: 200,000 lines equal");
    }
    Ok(())
}

fn run_folder(folder: &str, bench: &str) -> Result<(), String> {
    let entries = fs::read_dir(folder).map_err(|error| format!("{folder}: {error}"))?;
    let mut paths: Vec<PathBuf> = entries.filter_map(|entry| Some(entry.ok()?.path())).collect();
    let with = |path: &PathBuf, ending: &str| path.extension().is_some_and(|extension| extension == ending);
    let outputs = paths.iter().filter(|path| with(path, "out")).count();
    paths.retain(|path| with(path, "bin"));
    paths.sort();
    if paths.is_empty() || paths.len() != outputs {
        return Err(format!("{folder} has {} .bin and {outputs} .out files", paths.len()));
    }
    let mut differences = 0;
    for path in &paths {
        let read = |path: PathBuf| fs::read(&path).map_err(|error| format!("{}: {error}", path.display()));
        let bytes = read(path.clone())?;
        let wanted = read(path.with_extension("out"))?;
        for (name, found) in [("model", by_model(&bytes)), ("bench", output_of(bench, &bytes)?)] {
            if found != wanted {
                println!("{}: {name} differs\n{}", path.display(), first_difference(&wanted, &found));
                differences += 1;
            }
        }
    }
    println!("scripts: {} vectors, model and bench, {differences} differences", paths.len());
    if differences == 0 {
        Ok(())
    } else {
        Err(format!("{differences} differences"))
    }
}

fn by_model(bytes: &[u8]) -> Vec<u8> {
    let mut out = Vec::new();
    run(bytes, &mut out).expect("writing to memory works");
    out
}

/// The outputs of model and bench; the model plays while the bench does.
fn by_both(bench: &str, bytes: &[u8]) -> Result<(Vec<u8>, Vec<u8>), String> {
    thread::scope(|scope| {
        let model = scope.spawn(|| by_model(bytes));
        let found = output_of(bench, bytes)?;
        Ok((model.join().expect("the model ends"), found))
    })
}

/// The first line in which two outputs differ.
fn first_difference(wanted: &[u8], found: &[u8]) -> String {
    let wanted = String::from_utf8_lossy(wanted).into_owned();
    let found = String::from_utf8_lossy(found).into_owned();
    let mut wanted_lines = wanted.split_inclusive('\n');
    let mut found_lines = found.split_inclusive('\n');
    let mut number = 1;
    loop {
        match (wanted_lines.next(), found_lines.next()) {
            (None, None) => return "  no difference in lines".to_string(),
            (wanted, found) if wanted != found => {
                return format!("  line {number}: wanted {wanted:?}, found {found:?}");
            }
            _ => number += 1,
        }
    }
}
