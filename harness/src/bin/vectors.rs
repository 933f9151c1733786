//! Runs every line of calls files through the model and the library.
//! Usage: vectors [--print] [CALLS_FILE...]
//! Without files: every file of the folder data whose name ends in calls.txt.
//! With --print every line is written anew with the answer of the library, and the model is not
//! asked. The output is the file, byte for byte, if all answers are right.

use harness::calls_file::{answered, calls_files, compare_all, parse};
use harness::ffi::Library;
use harness::model::calls::{Functions, Model};
use std::env;
use std::fs;
use std::process::ExitCode;

fn main() -> ExitCode {
    let mut files: Vec<String> = env::args().skip(1).collect();
    let print = files.first().is_some_and(|first| first == "--print");
    if print {
        files.remove(0);
    }
    if files.is_empty() {
        files = calls_files(concat!(env!("CARGO_MANIFEST_DIR"), "/data"));
    }
    let mut lines = 0;
    let mut differences = 0;
    let mut empty = false;
    for path in &files {
        let text = match fs::read_to_string(path) {
            Ok(text) => text,
            Err(error) => {
                eprintln!("vectors: {path}: {error}");
                return ExitCode::from(2);
            }
        };
        if print {
            differences += print_anew(path, &text);
        } else {
            let (more_lines, more_differences) = check(path, &text);
            lines += more_lines;
            differences += more_differences;
            empty |= more_lines == 0;
        }
    }
    if !print {
        println!("vectors: {lines} lines, model and library, {differences} differences");
    }
    if differences == 0 && !empty {
        ExitCode::SUCCESS
    } else {
        ExitCode::FAILURE
    }
}

/// Lines with a call, and differences.
fn check(path: &str, text: &str) -> (usize, usize) {
    let sides: [(&str, &dyn Functions); 2] = [("model", &Model), ("library", &Library)];
    let mut lines = 0;
    let mut differences = 0;
    for (at, text) in text.lines().enumerate() {
        let cases = match parse(text) {
            Ok(cases) => cases,
            Err(error) => {
                println!("{path}, line {}: {error}: {text}", at + 1);
                differences += 1;
                continue;
            }
        };
        if cases.is_empty() {
            continue;
        }
        lines += 1;
        for (name, functions) in sides {
            if let Err(found) = compare_all(&cases, functions) {
                println!("{path}, line {}: {text}\n  {name} answers {found}", at + 1);
                differences += 1;
            }
        }
    }
    (lines, differences)
}

/// Lines that could not be written anew; they are left out, and standard error names them.
fn print_anew(path: &str, text: &str) -> usize {
    let mut anew = String::with_capacity(text.len());
    let mut left_out = 0;
    for (at, text) in text.lines().enumerate() {
        match answered(text, &Library) {
            Ok(line) => {
                anew.push_str(&line);
                anew.push('\n');
            }
            Err(error) => {
                eprintln!("vectors: {path}, line {}: {error}", at + 1);
                left_out += 1;
            }
        }
    }
    print!("{anew}");
    left_out
}
