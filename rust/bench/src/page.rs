//! The page about a run.

use crate::clock::{Measured, ROUND, ROUNDS};
use crate::machine::Machine;
use crate::measurements::Section;
use std::fmt::Write;

/// Nanoseconds, with the places that mean something.
fn time(nanoseconds: f64) -> String {
    match nanoseconds {
        t if t < 100.0 => format!("{t:.1}"),
        t => format!("{t:.0}"),
    }
}

/// What bin/instructions counted of one measurement.
pub struct Count {
    name: String,
    proved: f64,
    rust: f64,
}

/// Its lines: a name and two numbers.
pub fn counts(text: &str) -> Vec<Count> {
    let line = |line: &str| {
        let mut words = line.split_whitespace();
        let name = words.next()?.to_string();
        let proved = words.next()?.parse().ok()?;
        let rust = words.next()?.parse().ok()?;
        Some(Count { name, proved, rust })
    };
    text.lines().filter_map(line).collect()
}

fn row(page: &mut String, measured: &Measured, counts: &[Count]) {
    let (proved, rust) = (time(measured.proved), time(measured.rust));
    let (name, ratio) = (&measured.name, measured.ratio());
    let counted = match counts.iter().find(|count| count.name == *name) {
        None => "- | - | -".to_string(),
        Some(c) => format!("{:.0} | {:.0} | {:.2}", c.proved, c.rust, c.proved / c.rust),
    };
    let _ = writeln!(
        page,
        "| `{name}` | {counted} | {proved} | {rust} | {ratio:.2} |"
    );
}

pub fn page(machine: &Machine, sections: &[Section], counts: &[Count]) -> String {
    let mut page = String::from("# Benchmarks\n\n");
    if let Some(warning) = machine.warning() {
        let _ = writeln!(
            page,
            "**{warning}** Run it on x86-64 before believing a number here.\n"
        );
    }
    let _ = writeln!(
        page,
        "Made by `make bench`. Processor: {}.\n",
        machine.processor
    );
    let _ = writeln!(
        page,
        "The proved library (`target/staticlib/libexport.a`, called through the safe crate `rust/tamezohishu`) beside the path in \
         ordinary Rust (`rust/ordinary`, compiled by `--release`, no unsafe code, held to the independent reading by its tests). \
         Both get the same input and an output of their own each, and are seen to answer alike before they are measured. {ROUNDS} rounds of each side in \
         turn, about {} ms a round; the least round of each counts. Times are in nanoseconds. Instructions are those of x86-64 that \
         the work executes, counted by bin/instructions, the same on every machine. A ratio is the library's number by the ordinary \
         version's.",
        ROUND.as_millis()
    );
    let _ = write!(page, "\n{}", include_str!("../EXPLAINED.md"));
    for section in sections {
        let _ = writeln!(page, "\n## {}\n\n{}\n", section.title, section.about);
        let unit = section.unit;
        let _ = writeln!(
            page,
            "| name | instructions per {unit}, proved | Rust | ratio | ns per {unit}, proved | Rust | ratio |"
        );
        page.push_str("|---|---|---|---|---|---|---|\n");
        section
            .measured
            .iter()
            .for_each(|m| row(&mut page, m, counts));
    }
    page
}
