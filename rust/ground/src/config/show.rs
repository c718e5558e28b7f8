//! `ground config show`: an image as text.

use super::line::append_line;
use super::records::records;
use super::{refused, text_form};
use crate::ending::{print, say, Ending};
use crate::input;
use clap::{value_parser, Arg, ArgMatches, Command};
use std::path::PathBuf;
use tamezohishu::{Configuration, LoadError};

pub const NAME: &str = "ground config show";

const HELP: &str = concat!(
    "\
The proved library loads the image first. Where it is refused nothing is printed: standard error has
the refusal's number, its words, the record's offset and its bytes, and the exit status is 1.

",
    text_form!(),
    "

Examples:
  ground config show path.cfg
      prints, for configuration C of document 01,
      basics ground=1 fault=2 own=100
      route 10 to 1
      route 20 to 2
      protect 20
      fault 7 send 10 enabled latching args AA
  ground config show - < path.cfg
      the same from standard input
  ground config show path.cfg | ground config make > same.cfg
      gives back the image, byte for byte"
);

pub fn command() -> Command {
    Command::new("show")
        .about("Shows a configuration image as text")
        .after_help(HELP)
        .arg_required_else_help(true)
        .arg(
            Arg::new("image")
                .value_name("IMAGE")
                .value_parser(value_parser!(PathBuf))
                .required(true)
                .help("The image; - is standard input"),
        )
}

pub fn run(options: &ArgMatches) -> Result<Ending, Vec<String>> {
    let image = options.get_one::<PathBuf>("image");
    let image = image.ok_or_else(|| vec!["expected an image".to_string()])?;
    // An image that loads has at most 1,962 bytes; of a longer one the bad record is told.
    let image = input::read(image, input::LARGEST)?;
    match Configuration::load(&image) {
        Ok(_) => {
            print(text(&image)?)?;
            Ok(Ending::Done)
        }
        Err(error) => {
            say(NAME, &lines(&image, &error));
            Ok(Ending::Refused)
        }
    }
}

/// The text of an image that was loaded.
pub fn text(image: &[u8]) -> Result<String, Vec<String>> {
    let mut text = String::new();
    for record in records(image) {
        append_line(&record, &mut text).ok_or_else(|| {
            let (offset, kind) = (record.offset, record.kind);
            vec![format!(
                "record at byte {offset}: kind {kind}: it was loaded, and there is no text for it"
            )]
        })?;
    }
    Ok(text)
}

/// What is said of an image that was refused.
fn lines(image: &[u8], error: &LoadError) -> Vec<String> {
    let (offset, told) = (error.offset, refused::told(image, error));
    match refused::shown(image, offset) {
        Some(bytes) => vec![
            format!("record at byte {offset}: {told}"),
            format!("record at byte {offset}: {bytes}"),
        ],
        None => vec![format!("byte {offset}: {told}")],
    }
}

#[cfg(test)]
mod tests {
    use super::*;
    use crate::cell::append_spaced;
    use crate::config::make::image_of;
    use differential::dice::Dice;
    use differential::make::image::{self, Plan};
    use std::collections::BTreeMap;
    use tamezohishu::FaultState;

    const SEED: u64 = 16;

    /// The text by what the library loaded, record by record, and not by the image's bytes.
    fn by_the_library(image: &[u8]) -> String {
        let (configuration, state) = Configuration::load(image).expect("the image is good");
        let mut text = format!(
            "basics ground={} fault={} own={}\n",
            configuration.ground_source(),
            configuration.fault_source(),
            configuration.own_base()
        );
        for route in configuration.routes() {
            text += &format!("route {} to {}\n", route.id, route.destination);
        }
        for id in configuration.protected_ids() {
            text += &format!("protect {id}\n");
        }
        let states = state.fault_states(&configuration);
        for (row, state) in configuration.fault_rows().zip(states) {
            text += &format!("fault {} send {}", row.fault, row.response);
            text += match state {
                FaultState::Disabled => " disabled",
                _ => " enabled",
            };
            if row.latching {
                text += " latching";
            }
            if !row.arguments.is_empty() {
                text += " args";
                append_spaced(row.arguments, &mut text);
            }
            text += "\n";
        }
        text
    }

    /// The text says what the library loaded, and the image that is made of it is the one that was shown.
    #[test]
    fn good_images_there_and_back() {
        for case in 0..1_200 {
            let image = Plan::good(&mut Dice::new(SEED, 1, case)).image();
            let shown = text(&image).expect("it is shown");
            assert_eq!(shown, by_the_library(&image), "case {case}");
            let made = image_of(shown.as_bytes()).expect("the text is good");
            assert!(made.bytes == image, "case {case}: {shown}");
        }
    }

    /// Number and offset are those of the independent reading, what is wrong is found, and every number is met.
    #[test]
    fn refused_images_have_the_number_and_offset_of_the_reading() {
        let mut met = BTreeMap::new();
        for case in 0..4_000 {
            let image = image::any(&mut Dice::new(SEED, 2, case));
            let reading = reading::load(&image);
            *met.entry(reading.answer).or_insert(0) += 1;
            let Err(error) = Configuration::load(&image) else {
                assert_eq!(reading.answer, 0, "case {case}");
                continue;
            };
            let (number, offset) = (reading.answer, reading.offset);
            let said = lines(&image, &error);
            if image.is_empty() {
                assert_eq!(said, ["byte 0: 5 empty image"]);
                continue;
            }
            let start = format!("record at byte {offset}: {number} {}: ", error.refusal);
            assert!(said[0].starts_with(&start), "case {case}: {said:?}");
            assert!(said[0].len() > start.len(), "case {case}: {said:?}");
            let bytes = format!("record at byte {offset}: {:02X} ", image[offset]);
            let bytes = bytes.trim_end();
            assert!(said[1].starts_with(bytes), "case {case}: {said:?}");
        }
        let all: Vec<u8> = met.into_keys().collect();
        assert_eq!(all, [0, 1, 2, 3, 4, 5, 6, 7]);
    }

    /// Whatever is not of the form has no text, though the library would not load it either.
    #[test]
    fn what_has_no_text_is_told() {
        for record in [
            &[0, 0, 9, 0][..],
            &[1, 0, 3, 0, 20],
            &[3, 0, 3, 0, 20, 0, 0],
            &[7, 0, 4, 0, 7, 0, 20, 0, 2, 0, 0],
            &[7, 0, 4, 0, 7, 0, 20, 0, 1, 2, 0],
            &[7, 0, 4, 0, 7, 0, 20, 0, 1, 1, 1],
        ] {
            let told = text(record).expect_err("there is no text");
            let start = format!("record at byte 0: kind {}: ", record[2]);
            assert!(told[0].starts_with(&start), "{told:?}");
        }
    }
}
