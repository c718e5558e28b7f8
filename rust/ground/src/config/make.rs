//! `ground config make`: an image from text.

use super::line::read;
use super::records::append;
use super::{refused, text_form, LARGEST_TEXT};
use crate::ending::{print, say, Ending};
use crate::input;
use crate::whole_file::WholeFile;
use crate::words::{before_comment, behind_mark, UTF_16};
use clap::{value_parser, Arg, ArgMatches, Command};
use std::io::{self, IsTerminal};
use std::path::{Path, PathBuf};
use tamezohishu::{Configuration, LoadError};

pub const NAME: &str = "ground config make";

const HELP: &str = concat!(
    text_form!(),
    "

Nothing is sorted and nothing filled in. The image is written once the proved library has loaded it.
Where it is refused standard error has the refusal's number, its words and the line, and the exit
status is 1. Where the text is not as expected all of that is told by line and column, and the exit
status is 2. Nothing is written in either case.

Examples:
  ground config make -o path.cfg path.txt
      writes path.cfg, whole or not at all
  ground config make path.txt > path.cfg
  ground config make < path.txt | ground config show -
      the same on standard output, and shown again
A whole text:
  basics ground=1 fault=2 own=100
  route 10 to 1
  route 20 to 2                              # imager
  protect 20
  fault 7 send 10 enabled latching args AA"
);

pub fn command() -> Command {
    Command::new("make")
        .about("Makes a configuration image from text")
        .after_help(HELP)
        .arg(
            Arg::new("output")
                .short('o')
                .long("output")
                .value_name("FILE")
                .value_parser(value_parser!(PathBuf))
                .help("Where the image goes; standard output if left out"),
        )
        .arg(
            Arg::new("text")
                .value_name("TEXT")
                .value_parser(value_parser!(PathBuf))
                .default_value("-")
                .hide_default_value(true)
                .help("The text; standard input if left out, or -"),
        )
}

pub fn run(options: &ArgMatches) -> Result<Ending, Vec<String>> {
    let text = options.get_one::<PathBuf>("text");
    let text = text.map_or(Path::new("-"), PathBuf::as_path);
    let output = options.get_one::<PathBuf>("output");
    let output = output.filter(|path| path.as_path() != Path::new("-"));
    match output {
        None if io::stdout().is_terminal() => {
            let told = "standard output is a terminal: expected -o FILE, another file or a pipe";
            return Err(vec![told.to_string()]);
        }
        Some(path) if input::same(path, text) => {
            let file = path.display();
            return Err(vec![format!(
                "{file}: the image would take the text's place"
            )]);
        }
        _ => {}
    }
    let made = image_of(&input::read(text, LARGEST_TEXT)?)?;
    if let Err(error) = Configuration::load(&made.bytes) {
        say(NAME, &[made.refused(&error)]);
        return Ok(Ending::Refused);
    }
    match output {
        None => print(&made.bytes)?,
        Some(path) => WholeFile::write(path, &made.bytes)
            .and_then(WholeFile::keep)
            .map_err(|told| vec![format!("{}: {told}", path.display())])?,
    }
    Ok(Ending::Done)
}

/// The image that a text says.
#[derive(PartialEq, Eq, Debug)]
pub struct Made {
    pub bytes: Vec<u8>,
    /// Where each record begins, and the line that says it.
    lines: Vec<(usize, usize)>,
}

/// Reads a text as a whole, or tells all that is amiss with it.
pub fn image_of(text: &[u8]) -> Result<Made, Vec<String>> {
    let text = behind_mark(text).ok_or_else(|| vec![format!("the text is {UTF_16}")])?;
    let (mut bytes, mut lines, mut wrong) = (Vec::new(), Vec::new(), Vec::new());
    for (number, line) in (1..).zip(text.split(|byte| *byte == b'\n')) {
        // A byte that is not UTF-8 becomes a character that no word has.
        let line = String::from_utf8_lossy(line);
        match read(before_comment(&line)) {
            Ok(None) => {}
            Ok(Some((kind, body))) => {
                lines.push((bytes.len(), number));
                if append(kind, &body, &mut bytes).is_none() {
                    wrong.push(format!("line {number}: more bytes than a record can have"));
                }
            }
            Err(amiss) => {
                let told = |(column, told)| format!("line {number}, column {column}: {told}");
                wrong.extend(amiss.into_iter().map(told));
            }
        }
    }
    if wrong.is_empty() {
        Ok(Made { bytes, lines })
    } else {
        Err(wrong)
    }
}

impl Made {
    /// What is said where the library refuses the image.
    fn refused(&self, error: &LoadError) -> String {
        let told = refused::told(&self.bytes, error);
        let at = self
            .lines
            .iter()
            .find(|(offset, _)| *offset == error.offset);
        match at {
            Some((_, line)) => format!("line {line}: {told}"),
            None => format!("{told}: no line says a record"),
        }
    }
}

#[cfg(test)]
mod tests {
    use super::*;
    use crate::config::forms::FORMS;
    use crate::config::show;
    use differential::dice::Dice;
    use differential::make::image::Plan;

    const C: &str = "\
basics ground=1 fault=2 own=100
route 10 to 1
route 20 to 2
protect 20
fault 7 send 10 enabled latching args AA
";

    /// The image of a text whose every line is good, loaded or not.
    fn made(text: &str) -> Made {
        image_of(text.as_bytes()).expect("the text is good")
    }

    fn wrong(text: impl AsRef<[u8]>) -> Vec<String> {
        image_of(text.as_ref()).expect_err("the text is bad")
    }

    fn refused(text: &str) -> String {
        let made = made(text);
        let error = Configuration::load(&made.bytes).expect_err("the image is refused");
        made.refused(&error)
    }

    #[test]
    fn configuration_c_from_its_text() {
        let c = [
            &[6, 0, 1, 0, 1, 0, 2, 0, 100, 0][..],
            &[3, 0, 2, 0, 10, 0, 1],
            &[3, 0, 2, 0, 20, 0, 2],
            &[2, 0, 3, 0, 20, 0],
            &[8, 0, 4, 0, 7, 0, 10, 0, 1, 1, 1, 0xAA],
        ];
        assert_eq!(made(C).bytes, c.concat());
        assert_eq!(show::text(&c.concat()).as_deref(), Ok(C));
        let other = "\u{feff}# C\r\n\r\n\tbasics  ground=0x1 fault=0X0002 own=0x64 # own\r\n\
                     route 0x0A to 0x01#imager\r\n route 020 to 2\r\nprotect 20\r\n\
                     fault 7 send 10 enabled latching args aA";
        assert_eq!(made(other).bytes, c.concat());
    }

    #[test]
    fn what_may_be_left_out_of_a_fault_row() {
        for (line, expected) in [
            ("disabled", &[0, 0, 0][..]),
            ("enabled", &[1, 0, 0]),
            ("disabled latching", &[0, 1, 0]),
            ("enabled args 00", &[1, 0, 1, 0]),
            ("enabled latching args 0102 03", &[1, 1, 3, 1, 2, 3]),
        ] {
            let body = made(&format!("fault 7 send 10 {line}")).bytes;
            assert_eq!(body[8..], *expected, "{line}");
        }
    }

    const A_NUMBER: &str = "expected a number from 0 to 65,535, in decimal or in hex after 0x";
    const A_BYTE: &str = "expected a number from 0 to 255, in decimal or in hex after 0x";
    const HEX: &str = "expected two hex digits a byte, with or without spaces between bytes";
    const BASICS: &str = "expected basics ground=NUMBER fault=NUMBER own=NUMBER";
    const ROUTE: &str = "expected route COMMAND to DESTINATION";
    const PROTECT: &str = "expected protect COMMAND";
    const FAULT: &str =
        "expected fault FAULT send COMMAND disabled|enabled [latching] [args HEX..]";

    #[test]
    fn each_mistake_of_a_line_has_its_column() {
        let records = "expected basics, route, protect or fault";
        for (line, expected) in [
            (
                "rout 10 to 1",
                format!("1: \"rout\" is no record: {records}"),
            ),
            (
                "  Route 10 to 1",
                format!("3: \"Route\" is no record: {records}"),
            ),
            ("é", format!("1: \"é\" is no record: {records}")),
            ("basics", format!("7: the line ends here: {BASICS}")),
            (
                "basics ground=1 own=2",
                format!("17: \"own=2\" does not fit: {BASICS}"),
            ),
            (
                "basics ground 1",
                format!("8: \"ground\" does not fit: {BASICS}"),
            ),
            (
                "basics ground=1 fault= own=3",
                format!("23: empty: {A_NUMBER}"),
            ),
            (
                "basics ground=1 fault=2 own=65536",
                format!("29: \"65536\" is too large: {A_NUMBER}"),
            ),
            ("route", format!("6: the line ends here: {ROUTE}")),
            ("route 10 # to 1", format!("9: the line ends here: {ROUTE}")),
            ("route 10 1", format!("10: \"1\" does not fit: {ROUTE}")),
            (
                "route -1 to 1",
                format!("7: \"-1\" is no number: {A_NUMBER}"),
            ),
            (
                "route 10 to 256",
                format!("13: \"256\" is too large: {A_BYTE}"),
            ),
            (
                "route 10 to 1 2",
                format!("15: \"2\" does not fit: {ROUTE}"),
            ),
            ("protect", format!("8: the line ends here: {PROTECT}")),
            (
                "protect\t0x10000",
                format!("9: \"0x10000\" is too large: {A_NUMBER}"),
            ),
            (
                "protect 10 20",
                format!("12: \"20\" does not fit: {PROTECT}"),
            ),
            (
                "fault 7 send 10",
                format!("16: the line ends here: {FAULT}"),
            ),
            (
                "fault 7 sends 10 enabled",
                format!("9: \"sends\" does not fit: {FAULT}"),
            ),
            (
                "fault 7 send 10 on",
                format!("17: \"on\" does not fit: {FAULT}"),
            ),
            (
                "fault 7 send 10 enabled latched",
                format!("25: \"latched\" does not fit: {FAULT}"),
            ),
            (
                "fault 7 send 10 enabled args",
                "29: the line ends here: expected bytes behind args".to_string(),
            ),
            (
                "fault 7 send 10 enabled args 0G",
                format!("31: 'G' is no hex digit: {HEX}"),
            ),
            (
                "fault 7 send 10 enabled args 01 2 03",
                format!("33: \"2\" has an odd number of digits: {HEX}"),
            ),
            (
                "fault 7 send 10 enabled args 01 latching",
                format!("33: 'l' is no hex digit: {HEX}"),
            ),
        ] {
            let told = wrong(format!("{C}{line}\n"));
            assert_eq!(told, [format!("line 6, column {expected}")], "{line}");
        }
    }

    #[test]
    fn every_mistake_is_told() {
        let told =
            wrong("basics ground=x fault= own=1\n\nroute y to 300\nprotect\nfault 7 send z off\n");
        let expected = [
            format!("line 1, column 15: \"x\" is no number: {A_NUMBER}"),
            format!("line 1, column 23: empty: {A_NUMBER}"),
            format!("line 3, column 7: \"y\" is no number: {A_NUMBER}"),
            format!("line 3, column 12: \"300\" is too large: {A_BYTE}"),
            format!("line 4, column 8: the line ends here: {PROTECT}"),
            format!("line 5, column 14: \"z\" is no number: {A_NUMBER}"),
            format!("line 5, column 16: \"off\" does not fit: {FAULT}"),
        ];
        assert_eq!(told, expected);
        let told = wrong("fault 7 send 10 enabled args 0G 1 zz");
        let places = ["column 31: 'G'", "column 33: \"1\"", "column 35: 'z'"];
        assert_eq!(told.len(), places.len());
        for (told, place) in told.iter().zip(places) {
            assert!(told.starts_with(&format!("line 1, {place}")), "{told}");
        }
    }

    #[test]
    fn what_is_not_text_is_told() {
        let told = wrong(b"protect 2\xFF0\n");
        let expected = format!("line 1, column 9: \"2\u{fffd}0\" is no number: {A_NUMBER}");
        assert_eq!(told, [expected]);
        assert_eq!(
            wrong(b"\xFF\xFEb\0"),
            ["the text is in UTF-16: expected UTF-8"]
        );
        // An image is no text.
        assert!(image_of(&made(C).bytes).is_err());
    }

    #[test]
    fn more_bytes_than_their_number_can_say() {
        let row = |count: usize| format!("fault 7 send 10 enabled args{}", " 00".repeat(count));
        let told = "line 1, column 25: 256 bytes: expected at most 255 behind args";
        assert_eq!(wrong(row(256)), [told]);
        // What a record can have and the library does not take is the library's matter.
        for count in [17, 255] {
            let text = format!(
                "basics ground=1 fault=2 own=100\nroute 10 to 1\n{}",
                row(count)
            );
            let told = refused(&text);
            let behind = format!(": {count} arguments: a fault row has at most 16");
            assert!(
                told.starts_with("line 3: 3 ") && told.ends_with(&behind),
                "{told}"
            );
        }
    }

    #[test]
    fn a_refusal_has_the_line_of_its_record() {
        let basics = "# first\n\nbasics ground=1 fault=2 own=100\n";
        for (lines, line, number, behind) in [
            (
                "route 20 to 2\n\nroute 10 to 1",
                6,
                4,
                "route id 10 is not above 20, the one before",
            ),
            (
                "protect 101\nroute 10 to 1",
                5,
                4,
                "a route behind a protected id: kinds never fall",
            ),
            (basics, 6, 4, "a basics record is there already"),
            (
                "route 10 to 0",
                4,
                7,
                "destination 0: destinations are 1 to 31",
            ),
            (
                "route 10 to 255",
                4,
                7,
                "destination 255: destinations are 1 to 31",
            ),
            (
                "route 104 to 1",
                4,
                7,
                "route id 104 is an own id: these are 100 to 107",
            ),
            ("protect 100", 4, 7, "protected id 100 is the arm id"),
            (
                "protect 10",
                4,
                7,
                "protected id 10 is neither routed nor own",
            ),
            ("fault 7 send 10 enabled", 4, 7, "command 10 is not routed"),
        ] {
            let told = refused(&format!("{basics}{lines}\n"));
            let start = format!("line {line}: {number} ");
            assert!(told.starts_with(&start), "{told}");
            assert!(told.ends_with(&format!(": {behind}")), "{told}");
        }
        for nothing in ["", "# nothing\n\n"] {
            assert_eq!(refused(nothing), "5 empty image: no line says a record");
        }
        let routes: String = (200..329).map(|id| format!("route {id} to 1\n")).collect();
        let told = refused(&format!("{basics}{routes}"));
        assert!(
            told.starts_with("line 132: 6 one row more than the limit: 128 "),
            "{told}"
        );
    }

    /// A text with a character changed, lost or added is told, or is another text whose image is its own: nothing is made up.
    #[test]
    fn damaged_texts_are_told_or_taken_as_they_are() {
        let (mut taken, mut told) = (0, 0);
        for case in 0..3_000 {
            let dice = &mut Dice::new(16, 3, case);
            let mut text = match dice.percent(20) {
                true => show::text(&Plan::good(dice).image()).expect("it is shown"),
                false => C.to_string(),
            }
            .into_bytes();
            let at = dice.below(text.len());
            let byte = dice.one(b"0123456789ABCDEFabcdeflnrtx= \n\t#-\xFF");
            match dice.below(3) {
                0 => text[at] = byte,
                1 => drop(text.remove(at)),
                _ => text.insert(at, byte),
            }
            match image_of(&text) {
                Ok(made) => {
                    taken += 1;
                    let again = show::text(&made.bytes).expect("it is shown");
                    let again = image_of(again.as_bytes()).expect("the text is good");
                    assert_eq!(again.bytes, made.bytes, "case {case}");
                }
                Err(wrong) => {
                    told += 1;
                    let placed = wrong.iter().all(|told| told.starts_with("line "));
                    assert!(placed && !wrong.is_empty(), "case {case}: {wrong:?}");
                }
            }
        }
        assert!(taken > 100 && told > 100, "{taken} taken, {told} told");
    }

    /// The help has each form as the table has it.
    #[test]
    fn the_help_has_every_form() {
        for form in FORMS {
            assert!(HELP.contains(&format!("\n  {}\n", form.usage())));
        }
    }
}
