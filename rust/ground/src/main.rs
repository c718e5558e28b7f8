//! `ground`: the program for people on the ground. Each subcommand is a module; the rules are those of the proved library, and
//! none is decided here.

mod build;
mod cell;
mod config;
mod ending;
mod explain;
mod input;
mod judge;
mod sheet;
mod whole_file;
mod words;

use clap::Command;
use ending::{print, Ending};
use std::process::ExitCode;

const EXAMPLES: &str = "\
Examples:
  ground build --apid 1 --count 0 --id 100 --args 02
  ground build --csv session.csv --records session.rec
  ground judge '18 01 C0 00 00 05 01 D2 00 0A 05 00'
  ground config show path.cfg
  ground config make -o path.cfg path.txt
  ground explain path.cfg session.rec
  ground build --help

Exit status: 0 where all went well, 1 where something was refused, 2 where the options or a file
were not as expected. Standard error says why.";

fn command() -> Command {
    Command::new("ground")
        .bin_name("ground")
        .about("Commands for the satellite, by the proved command path")
        .after_help(EXAMPLES)
        .subcommand_required(true)
        .arg_required_else_help(true)
        .subcommand(build::command())
        .subcommand(judge::command())
        .subcommand(config::command())
        .subcommand(explain::command())
}

/// Help that was asked for goes to standard output, a complaint to standard error.
fn help_or_complaint(told: &clap::Error) -> Ending {
    if told.use_stderr() {
        // Where standard error can't be written to, the exit status alone tells.
        let _ = told.print();
        return Ending::Misused;
    }
    match print(told.to_string()) {
        Ok(()) => Ending::Done,
        Err(told) => ending::failed("ground", &told),
    }
}

fn main() -> ExitCode {
    if let Err(told) = tamezohishu::check_archive() {
        return ending::failed("ground", &[told.to_string()]).into();
    }
    let ending = match command().try_get_matches() {
        Ok(wanted) => match wanted.subcommand() {
            Some(("build", wanted)) => {
                build::run(wanted).unwrap_or_else(|told| ending::failed("ground build", &told))
            }
            Some(("judge", wanted)) => {
                judge::run(wanted).unwrap_or_else(|told| ending::failed("ground judge", &told))
            }
            Some(("config", wanted)) => config::run(wanted),
            Some(("explain", wanted)) => {
                explain::run(wanted).unwrap_or_else(|told| ending::failed(explain::NAME, &told))
            }
            _ => Ending::Misused,
        },
        Err(told) => help_or_complaint(&told),
    };
    ending.into()
}

#[cfg(test)]
mod tests {
    #[test]
    fn the_options_are_told_apart() {
        super::command().debug_assert();
    }
}
