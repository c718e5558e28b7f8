//! `ground build`: packets from options or from a spreadsheet.

use crate::cell::{append_spaced, bytes, good, number};
use crate::ending::{print, say, Ending};
use crate::input;
use crate::sheet::{Row, Sheet};
use crate::whole_file::WholeFile;
use clap::{value_parser, Arg, ArgMatches, Command};
use std::io;
use std::path::{Path, PathBuf};
use tamezohishu::{build, BuildRefusal, Fields, Recording};

const NAME: &str = "ground build";

const USAGE: &str = "\
ground build --apid NUMBER --count NUMBER --id NUMBER [--args HEX] [--pads NUMBER] [--records FILE]
       ground build --csv FILE [--records FILE]";

const HELP: &str = "\
Each packet is a line on standard output: 0 and its bytes in hex. A refused one is a line too, the
refusal's number alone; standard error has it in words, and the exit status is 1.

A spreadsheet has a header row with the columns apid, count, id, args and, where there are pads,
pads, in any order. Cells are separated by commas, or by semicolons where the header row has these
and no comma. Numbers are decimal, or hex after 0x; args are hex digits, two a byte. An empty cell
is no arguments under args, no pads under pads, and an error elsewhere. Blank lines are skipped.

Where a cell is not as expected nothing is built or written: each such cell is told by its row and
column, and the exit status is 2. A spreadsheet program may take args for a number, 0010 for 10:
have that column as text, or write spaces, as 00 10.

Examples:
  ground build --apid 1 --count 0 --id 100 --args 02
      prints 0 18 01 C0 00 00 04 00 BB 00 64 02
  ground build --apid 0x7FF --count 16383 --id 0x14 --args '02 05' --pads 1
  ground build --csv session.csv
      prints a line for each row, in their order
  ground build --csv session.csv --records session.rec
      also writes what was built to session.rec, for bin/step CONFIG < session.rec
  ground build --csv - < session.csv
      the same from standard input";

pub fn command() -> Command {
    let field = |name, value, help| {
        Arg::new(name)
            .long(name)
            .value_name(value)
            .help(help)
            .allow_negative_numbers(true)
            .conflicts_with("csv")
    };
    let needed = |name, help| field(name, "NUMBER", help).required_unless_present("csv");
    let file = |name| {
        Arg::new(name)
            .long(name)
            .value_name("FILE")
            .value_parser(value_parser!(PathBuf))
    };
    Command::new("build")
        .about("Makes packets, one from options or many from a spreadsheet")
        .override_usage(USAGE)
        .after_help(HELP)
        .arg_required_else_help(true)
        .arg(needed("apid", "APID, at most 2,047"))
        .arg(needed("count", "Sequence count, at most 16,383"))
        .arg(needed("id", "Command id, at most 65,535"))
        .arg(field(
            "args",
            "HEX",
            "Arguments in hex, at most 255 bytes; none if left out",
        ))
        .arg(field(
            "pads",
            "NUMBER",
            "Zero bytes behind the arguments, at most 127; 0 if left out",
        ))
        .arg(file("csv").help("Takes the rows of a spreadsheet instead; - is standard input"))
        .arg(file("records").help("Also writes the packets that were built as records of kind 16"))
}

/// What there is to build.
struct Wanted {
    rows: Vec<Row>,
    /// Whether the rows come from a sheet, and so have numbers to be told by.
    sheet: bool,
}

/// What came of it.
#[derive(Default)]
struct Made {
    /// A line for each row.
    lines: String,
    packets: usize,
    recording: Recording,
    /// The refusals in words.
    refused: Vec<String>,
}

pub fn run(options: &ArgMatches) -> Result<Ending, Vec<String>> {
    let records = options.get_one::<PathBuf>("records");
    if records.is_some_and(|path| path == Path::new("-")) {
        return Err(vec![
            "--records: expected a file: standard output has the lines".to_string(),
        ]);
    }
    let wanted = match options.get_one::<PathBuf>("csv") {
        Some(csv) => from_sheet(csv, records)?,
        None => from_options(options)?,
    };
    let mut made = make(&wanted)?;
    if let Some(path) = records {
        let named = |told: io::Error| vec![format!("{}: {told}", path.display())];
        let file = WholeFile::write(path, made.recording.as_bytes()).map_err(named)?;
        // The records go to their place once the lines are out, so that a run that fails leaves none behind.
        print(&made.lines)?;
        file.keep().map_err(named)?;
        made.sum_up(path, if wanted.sheet { "row" } else { "packet" });
    } else {
        print(&made.lines)?;
    }
    say(NAME, &made.refused);
    Ok(if made.refused.is_empty() {
        Ending::Done
    } else {
        Ending::Refused
    })
}

/// The one packet that the options say.
fn from_options(options: &ArgMatches) -> Result<Wanted, Vec<String>> {
    let text = |name| options.get_one::<String>(name).map(|text| text.trim());
    let word = |name| number(text(name).unwrap_or_default());
    let mut wrong = Vec::new();
    let apid = good(word("apid"), &"--apid", &mut wrong);
    let count = good(word("count"), &"--count", &mut wrong);
    let id = good(word("id"), &"--id", &mut wrong);
    let arguments = bytes(text("args").unwrap_or_default());
    let arguments = good(arguments, &"--args", &mut wrong);
    let pads = text("pads").map_or(Ok(0), number);
    let pads = good(pads, &"--pads", &mut wrong);
    let row = || {
        Some(Row {
            number: 1,
            apid: apid?,
            count: count?,
            id: id?,
            arguments: arguments?,
            pads: pads?,
        })
    };
    let rows = vec![row().ok_or(wrong)?];
    Ok(Wanted { rows, sheet: false })
}

/// The packets of a sheet.
fn from_sheet(csv: &Path, records: Option<&PathBuf>) -> Result<Wanted, Vec<String>> {
    if records.is_some_and(|path| input::same(path, csv)) {
        let file = csv.display();
        return Err(vec![format!(
            "{file}: the records would take the sheet's place"
        )]);
    }
    // It is held in memory as a whole, so that no packet comes from a sheet with a bad cell.
    let sheet = Sheet::read(&input::read(csv, input::LARGEST)?)?;
    let mut notes = Vec::new();
    if sheet.semicolons {
        notes.push("semicolons separate the cells, as in the header row".to_string());
    }
    if sheet.rows.is_empty() {
        notes.push("no row beneath the header row".to_string());
    }
    say(NAME, &notes);
    Ok(Wanted {
        rows: sheet.rows,
        sheet: true,
    })
}

/// Has the library build every packet.
fn make(wanted: &Wanted) -> Result<Made, Vec<String>> {
    let mut made = Made::default();
    for row in &wanted.rows {
        let built = build(&Fields {
            apid: row.apid,
            count: row.count,
            id: row.id,
            arguments: &row.arguments,
            pads: row.pads,
        });
        match built {
            Ok(packet) => made.take(&packet)?,
            Err(refusal) => made.refuse(refusal, wanted.sheet.then_some(row.number)),
        }
    }
    Ok(made)
}

impl Made {
    fn take(&mut self, packet: &[u8]) -> Result<(), Vec<String>> {
        self.lines.push('0');
        append_spaced(packet, &mut self.lines);
        self.lines.push('\n');
        self.packets += 1;
        let recorded = self.recording.packet(packet);
        recorded.map_err(|told| vec![told.to_string()])
    }

    fn refuse(&mut self, refusal: BuildRefusal, row: Option<u64>) {
        let number = refusal.number();
        self.lines.push_str(&format!("{number}\n"));
        self.refused.push(match row {
            Some(row) => format!("row {row}: {number} {refusal}"),
            None => format!("{number} {refusal}"),
        });
    }

    /// Says what the records have and what they lack, where they lack something.
    fn sum_up(&mut self, records: &Path, refusable: &str) {
        let (packets, refused) = (self.packets, self.refused.len());
        let were = |number: usize, what: &str| match number {
            1 => format!("1 {what} was"),
            _ => format!("{number} {what}s were"),
        };
        if refused > 0 {
            let (written, refused) = (were(packets, "packet"), were(refused, refusable));
            let file = records.display();
            let told = format!("{file}: {written} written, {refused} refused");
            self.refused.push(told);
        }
    }
}

#[cfg(test)]
mod tests {
    use super::*;
    use tamezohishu::{arguments, judge};

    fn row(apid: u16, count: u16, arguments: Vec<u8>, pads: u16) -> Row {
        Row {
            number: 7,
            apid,
            count,
            id: 20,
            arguments,
            pads,
        }
    }

    #[test]
    fn what_is_built_the_judge_accepts() {
        // Every number of arguments, and every other field up to its most.
        let of = |n: u16| row(8 * n + 7, 64 * n + 63, vec![n as u8; n.into()], n / 2);
        let rows: Vec<Row> = (0..=255)
            .map(|n| Row {
                id: 257 * n,
                ..of(n)
            })
            .collect();
        let wanted = Wanted { rows, sheet: true };
        let made = make(&wanted).expect("every packet fits a record");
        assert_eq!((made.packets, made.refused.len()), (256, 0));
        let mut records = made.recording.as_bytes();
        let mut lines = made.lines.lines();
        for row in &wanted.rows {
            let (head, rest) = records.split_at(4);
            let length = u16::from_le_bytes([head[0], head[1]]);
            assert_eq!(head[2..], [16, 0]);
            let (packet, rest) = rest.split_at(length.into());
            records = rest;
            assert_eq!(judge(packet).map(|judged| judged.id), Ok(row.id));
            assert_eq!(arguments(packet), row.arguments);
            assert_eq!(
                packet.len(),
                10 + row.arguments.len() + usize::from(row.pads)
            );
            let line = lines.next().expect("a line for each row");
            assert_eq!(bytes(&line[2..]).as_deref(), Ok(packet));
        }
        assert!(records.is_empty() && lines.next().is_none());
    }

    #[test]
    fn a_refusal_has_its_number_and_its_words() {
        let rows = vec![
            row(2048, 16384, vec![0; 256], 128),
            row(2047, 16384, vec![0; 256], 128),
            row(2047, 16383, vec![0; 256], 128),
            row(2047, 16383, vec![0; 255], 128),
        ];
        let mut made = make(&Wanted { rows, sheet: true }).expect("no packet");
        assert_eq!(made.lines, "40\n41\n42\n43\n");
        assert_eq!(made.refused[3], "row 7: 43 more than 127 pads");
        made.sum_up(Path::new("a"), "row");
        let summed = "a: 0 packets were written, 4 rows were refused";
        assert_eq!(made.refused[4..], [summed.to_string()]);
        assert!(made.recording.as_bytes().is_empty());
    }
}
