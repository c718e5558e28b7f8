//! `bin/cargo run --release -p differential`: the proved library beside the independent reading.
//!
//! `--seed N`, `--packets N`, `--images N`, `--sessions N`, `--states N`, `--builds N`, `--saved N` (cases of a part), `--part
//! NAME` (that one alone), `--case K` (that one case of each part that runs, and no table).

use differential::dice::Dice;
use differential::parts::{Part, PARTS};
use differential::tally::Tally;
use std::panic::{catch_unwind, AssertUnwindSafe};
use std::process::ExitCode;
use std::time::Instant;

const HELP: &str = "\
usage: differential [--seed N] [--packets N] [--images N] [--sessions N] [--states N] [--builds N] [--saved N] [--part NAME]
                    [--case K]
Compares the proved library with the independent reading on made-up input, says how often each answer and refusal was met, and
ends with 1 if the two differ or a number was never met.
  --seed N                  what the input is made from; the same seed makes the same input
  --packets N, --images N, --sessions N, --states N, --builds N, --saved N   how many cases a part has
  --part NAME               that part alone: packets, images, sessions, states, builds or saved
  --case K                  that one case of each part that runs, and no table
In the table, form is what keeps an accepted packet from the builder's form: 0 nothing, 1 other sequence flags, 2 the high bit
of the function code, 4 a pad byte that is not zero, or their sum; saved is what was said of the bytes of a saved form: 0 taken,
1 another form, 2 another version, 3 cut, 4 too long, 5 damaged, 6 of another configuration.";

struct Wanted {
    seed: u64,
    part: Option<String>,
    case: Option<u64>,
    cases: [u64; PARTS.len()],
}

fn wanted(mut words: impl Iterator<Item = String>) -> Result<Wanted, String> {
    let mut wanted = Wanted {
        seed: 20_011_231,
        part: None,
        case: None,
        cases: PARTS.map(|part| part.cases),
    };
    while let Some(word) = words.next() {
        let name = word.strip_prefix("--").ok_or(format!("what is {word}?"))?;
        let value = words.next().ok_or(format!("{word} needs a value"))?;
        let place = PARTS.iter().position(|part| part.name == name);
        if name == "part" {
            if !PARTS.iter().any(|part| part.name == value) {
                return Err(format!("there is no part {value}"));
            }
            wanted.part = Some(value);
            continue;
        }
        let number = value
            .parse()
            .map_err(|_| format!("{word} needs a number"))?;
        match (name, place) {
            ("seed", _) => wanted.seed = number,
            ("case", _) => wanted.case = Some(number),
            (_, Some(place)) => wanted.cases[place] = number,
            _ => return Err(format!("what is {word}?")),
        }
    }
    Ok(wanted)
}

/// Runs the cases of a part, up to the first difference. Whether they agreed.
fn run(part: &Part, place: usize, wanted: &Wanted, tally: &mut Tally) -> bool {
    let cases = match wanted.case {
        Some(case) => case..case + 1,
        None => 0..wanted.cases[place],
    };
    let began = Instant::now();
    let number = cases.end - cases.start;
    for case in cases {
        let mut dice = Dice::new(wanted.seed, place as u64, case);
        // A panic, of the reading or here, is a difference too, and is told with its case.
        let case_of = AssertUnwindSafe(|| (part.case)(&mut dice, tally));
        let told = catch_unwind(case_of).unwrap_or_else(|_| Err("panicked".to_string()));
        if let Err(told) = told {
            let (name, seed) = (part.name, wanted.seed);
            let seconds = began.elapsed().as_secs_f64();
            println!("{name}: case {case} of seed {seed} differs ({seconds:.1} s)\n{told}");
            println!("again: bin/cargo run --release -p differential -- --seed {seed} --part {name} --case {case}");
            return false;
        }
    }
    let seconds = began.elapsed().as_secs_f64();
    println!("{}: {number} alike ({seconds:.1} s)", part.name);
    true
}

fn main() -> ExitCode {
    if let Err(told) = tamezohishu::check_archive() {
        eprintln!("differential: {told}");
        return ExitCode::FAILURE;
    }
    if std::env::args().any(|word| word == "--help" || word == "-h") {
        println!("{HELP}");
        return ExitCode::SUCCESS;
    }
    let wanted = match wanted(std::env::args().skip(1)) {
        Ok(wanted) => wanted,
        Err(told) => {
            eprintln!("differential: {told}");
            return ExitCode::from(2);
        }
    };
    println!("seed {}", wanted.seed);
    let mut tally = Tally::default();
    let mut good = true;
    for (place, part) in PARTS.iter().enumerate() {
        if wanted.part.as_deref().is_none_or(|name| name == part.name) {
            good &= run(part, place, &wanted, &mut tally);
        }
    }
    // Some parts or one case show less, and say nothing of the whole.
    if wanted.part.is_none() && wanted.case.is_none() {
        print!("{}", tally.table());
        for missing in tally.missing() {
            println!("never met: {missing}");
            good = false;
        }
    }
    if good {
        ExitCode::SUCCESS
    } else {
        ExitCode::FAILURE
    }
}
