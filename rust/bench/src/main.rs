//! # The proved library and ordinary Rust, side by side
//!
//! `bin/cargo run --release -p bench` measures both in one run and prints a line `ratio NAME VALUE` for each measurement, the
//! proved library's time by the ordinary version's. `--write FILE` writes a page about it too; a file that is not absolute
//! stands in the repository's root. With `--instructions FILE` the page has the instructions that bin/instructions counted
//! beside the times; it asks for them by `--names` and `--run`.
//!
//! [`clock`] says how is measured, [`work`] what the input is, [`measurements`] what is measured, [`page`] how it is told.
//! [`rows`] is another matter: which rows of the tables an event loads, for bin/rows.

mod clock;
mod machine;
mod measurements;
mod page;
mod rows;
mod work;

use clock::{Instead, INSTEAD};
use std::path::PathBuf;
use std::process::ExitCode;

const USAGE: &str =
    "usage: bench [--write FILE [--instructions FILE]] | --names | --run NAME proved|rust TIMES | --rows table|check";

fn main() -> ExitCode {
    if let Err(told) = tamezohishu::check_archive() {
        eprintln!("bench: {told}");
        return ExitCode::FAILURE;
    }
    let words: Vec<String> = std::env::args().skip(1).collect();
    let words: Vec<&str> = words.iter().map(String::as_str).collect();
    let (file, counts) = match words[..] {
        [] => (None, None),
        ["--write", file] => (Some(file), None),
        ["--write", file, "--instructions", counts] => (Some(file), Some(counts)),
        ["--names"] => return instead(Instead::Names),
        ["--rows", "table"] => return rows::table(),
        ["--rows", "check"] => return rows::check(),
        ["--run", name, side @ ("proved" | "rust"), times] => {
            let Ok(times) = times.parse() else {
                eprintln!("{USAGE}");
                return ExitCode::from(2);
            };
            return instead(Instead::Run {
                name: name.to_string(),
                proved: side == "proved",
                times,
            });
        }
        _ => {
            eprintln!("{USAGE}");
            return ExitCode::from(2);
        }
    };
    let counts = match counts.map(|counts| std::fs::read_to_string(rooted(counts))) {
        None => Vec::new(),
        Some(Ok(text)) => page::counts(&text),
        Some(Err(error)) => {
            eprintln!("bench: the file of instructions: {error}");
            return ExitCode::FAILURE;
        }
    };
    let machine = machine::Machine::here();
    if let Some(warning) = machine.warning() {
        println!("{warning}");
    }
    println!("processor: {}", machine.processor);
    let sections = measurements::all();
    for measured in sections.iter().flat_map(|section| &section.measured) {
        println!("ratio {} {:.2}", measured.name, measured.ratio());
    }
    if let Some(file) = file {
        if let Err(error) = std::fs::write(rooted(file), page::page(&machine, &sections, &counts)) {
            eprintln!("bench: {file}: {error}");
            return ExitCode::FAILURE;
        }
    }
    ExitCode::SUCCESS
}

/// No times: what is asked for instead.
fn instead(what: Instead) -> ExitCode {
    let _ = INSTEAD.set(what);
    let _ = measurements::all();
    ExitCode::SUCCESS
}

/// A file in the repository, unless it is absolute. Cargo tells where this package stands, and it runs programs from where it
/// was started itself.
fn rooted(file: &str) -> PathBuf {
    let root = std::env::var_os("CARGO_MANIFEST_DIR").map(PathBuf::from);
    root.unwrap_or_default().join("../..").join(file)
}
