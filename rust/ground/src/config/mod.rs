//! `ground config`: a configuration image shown as text, and made from text.

mod forms;
mod line;
mod make;
mod records;
mod refused;
mod show;

use crate::ending::{failed, Ending};
use crate::input::MIB;
use clap::{ArgMatches, Command};

/// The most bytes of a text. An image that loads has at most 193 lines.
const LARGEST_TEXT: u64 = MIB;

/// The text form, for the help of both subcommands.
macro_rules! text_form {
    () => {
        "\
A line of the text is a record; their order is that of the image:
  basics ground=NUMBER fault=NUMBER own=NUMBER
  route COMMAND to DESTINATION
  protect COMMAND
  fault FAULT send COMMAND disabled|enabled [latching] [args HEX..]
Basics are the two source numbers and the first of the eight own ids. COMMAND is a command id, FAULT
a fault id, DESTINATION 1 to 31. Numbers are decimal, or hex after 0x; the bytes behind args are hex
digits, two a byte. Blank lines are skipped, and # starts a comment."
    };
}
use text_form;

const EXAMPLES: &str = "\
Examples:
  ground config show path.cfg
  ground config make -o path.cfg path.txt
  ground config show path.cfg | ground config make > same.cfg
  ground config make --help";

pub fn command() -> Command {
    Command::new("config")
        .about("Shows a configuration image as text, or makes one from text")
        .after_help(EXAMPLES)
        .subcommand_required(true)
        .arg_required_else_help(true)
        .subcommand(show::command())
        .subcommand(make::command())
}

pub fn run(options: &ArgMatches) -> Ending {
    match options.subcommand() {
        Some(("show", wanted)) => {
            show::run(wanted).unwrap_or_else(|told| failed(show::NAME, &told))
        }
        Some(("make", wanted)) => {
            make::run(wanted).unwrap_or_else(|told| failed(make::NAME, &told))
        }
        _ => Ending::Misused,
    }
}
