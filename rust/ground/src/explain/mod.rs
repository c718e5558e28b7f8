//! `ground explain`: a session in words, an event a line, or a row of a spreadsheet.

mod event;
mod hex;
mod pieces;
mod progress;
mod session;
mod table;
mod text;
mod why;
mod words;

#[cfg(test)]
mod tests;

use crate::ending::{say, Ending};
use clap::{value_parser, Arg, ArgAction, ArgMatches, Command};
use hex::Start;
use pieces::Pieces;
use progress::Progress;
use session::{tell, Broken, End, Telling};
use std::fs::File;
use std::io::{self, BufWriter, ErrorKind, Read};
use std::path::{Path, PathBuf};
use table::Table;
use tamezohishu::Configuration;
use text::Lines;

pub const NAME: &str = "ground explain";

/// The most bytes of an image. The step program, too, takes no more of a longer file.
const LARGEST_IMAGE: u64 = 65_536;

/// The most bytes of output that are kept back while there is more to tell.
const KEPT_BACK: usize = 64 << 10;

const USAGE: &str = "ground explain [--csv] IMAGE RECORDING";

const HELP: &str = "\
IMAGE is a configuration image. RECORDING is a run of records as bin/step reads them and ground
build --records writes them: packets (kind 16), ticks (17) and faults (18). It is read in pieces,
and may be as long as it likes.

Each event is a line on standard output: its number, the time, which is how many ticks came before
it, and what came; the number of the answer, its words and why; for a command that was dispatched
its destination and the bytes sent on, in hex; then the arm record and the seven counters behind
it. Of the arguments of a command and the bytes of a rejected packet a line shows the first 16.
Behind the last event two lines sum the session up, the second as `at the end:` or, of a recording
that was not read whole, `where it stopped:`. The answers are the proved library's own; only
the words are the program's.

With --csv there is a header row and a row for each event instead. The columns: event, time, kind,
bytes (the body of the record, all of it, in hex), answer, words, id, destination, written, command
(the bytes sent on, in hex), armed (0 or 1), ticks, A, R, D, P, U, I, F, why.

A record that is cut (60), of another kind (61) or of wrong length (62) ends the session. Standard
error says so, with its offset and first bytes, and the exit status is 1; it is 1, too, for an image
that is refused, of which nothing is told. It is 0 where the session was told to its end, whatever
the path answered, and 2 where a file can't be read.

Examples:
  ground explain c.cfg session.rec
      prints lines as this one:
      event 3, time 0: tick | 14 tick: armed by event 2 | armed, 1 tick left | A2 R0 D0 P1 U0 I0 F0
  ground explain c.cfg - < session.rec
      the same from standard input
  ground explain c.cfg session.rec | grep ' | 30 '
      the commands that were protected and found the path unarmed
  ground explain --csv c.cfg session.rec > session.csv
      for a spreadsheet";

pub fn command() -> Command {
    let file = |name, value| {
        Arg::new(name)
            .value_name(value)
            .value_parser(value_parser!(PathBuf))
            .required(true)
    };
    Command::new("explain")
        .about("Tells a recorded session in words: each answer, why it came, and what it left")
        .override_usage(USAGE)
        .after_help(HELP)
        .arg_required_else_help(true)
        .arg(file("image", "IMAGE").help("The configuration image, a file"))
        .arg(file("recording", "RECORDING").help("The recording, a file; - is standard input"))
        .arg(
            Arg::new("csv")
                .long("csv")
                .action(ArgAction::SetTrue)
                .help("Prints rows for a spreadsheet, under a header row"),
        )
}

pub fn run(options: &ArgMatches) -> Result<Ending, Vec<String>> {
    let path = |name| {
        let path = options.get_one::<PathBuf>(name);
        path.map_or(Path::new(""), PathBuf::as_path)
    };
    let image = read_image(path("image"))?;
    let recording = Recorded::open(path("recording"))?;
    let loaded = Configuration::load(&image);
    let (configuration, mut state) = match loaded {
        Ok(loaded) => loaded,
        Err(told) => {
            let (file, refusal) = (path("image").display(), told.refusal);
            let (number, offset) = (refusal.number(), told.offset);
            say(
                NAME,
                &[format!("{file}: {number} {refusal}, at byte {offset}")],
            );
            return Ok(Ending::Refused);
        }
    };
    let out = BufWriter::with_capacity(KEPT_BACK, io::stdout().lock());
    let mut telling: Box<dyn Telling> = match options.get_flag("csv") {
        true => Box::new(Table::new(out)),
        false => Box::new(Lines::new(out)),
    };
    let mut progress = Progress::new(NAME, recording.size);
    let mut pieces = Pieces::new(recording.input);
    let told = tell(
        &configuration,
        &mut state,
        &mut pieces,
        telling.as_mut(),
        &mut progress,
    );
    // Nothing is said beside it.
    progress.clear();
    let name = recording.name;
    match told {
        Ok(End::Whole) => Ok(Ending::Done),
        Ok(End::Stopped {
            stop,
            offset,
            record,
        }) => {
            let (number, start) = (stop.number(), Start(&record));
            say(
                NAME,
                &[format!(
                    "{name}: {number} {stop}, at byte {offset}: {start}"
                )],
            );
            Ok(Ending::Refused)
        }
        // A reader that has gone wants no more.
        Err(Broken::Output(told)) if told.kind() == ErrorKind::BrokenPipe => Ok(Ending::Done),
        Err(Broken::Output(told)) => Err(vec![format!("standard output: {told}")]),
        Err(Broken::Input(told)) => Err(vec![format!("{name}: {told}")]),
    }
}

/// The bytes of an image.
fn read_image(path: &Path) -> Result<Vec<u8>, Vec<String>> {
    if path == Path::new("-") {
        let told = "IMAGE: expected a file: standard input is for the recording";
        return Err(vec![told.to_string()]);
    }
    let mut image = Vec::new();
    let read = File::open(path).and_then(|file| file.take(LARGEST_IMAGE).read_to_end(&mut image));
    match read {
        Ok(_) => Ok(image),
        Err(told) => Err(vec![format!("{}: {told}", path.display())]),
    }
}

/// A recording that can be read.
struct Recorded {
    name: String,
    input: Box<dyn Read>,
    /// How many bytes it has, of a plain file.
    size: Option<u64>,
}

impl Recorded {
    fn open(path: &Path) -> Result<Recorded, Vec<String>> {
        if path == Path::new("-") {
            return Ok(Recorded {
                name: "standard input".to_string(),
                input: Box::new(io::stdin().lock()),
                size: None,
            });
        }
        let name = path.display().to_string();
        let file = File::open(path).map_err(|told| vec![format!("{name}: {told}")])?;
        let there = file.metadata().ok().filter(|there| there.is_file());
        Ok(Recorded {
            name,
            size: there.map(|there| there.len()),
            input: Box::new(file),
        })
    }
}
