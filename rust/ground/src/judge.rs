//! `ground judge`: what the judge says of packets written in hex, a line each.

use crate::cell::{append_bytes, append_spaced, counted};
use crate::ending::{print_on, say, Ending};
use crate::words::{before_comment, behind_mark, words, UTF_16};
use clap::{Arg, ArgAction, ArgMatches, Command};
use std::fmt::{self, Display, Write};
use std::io::{self, BufRead, BufReader, Read};
use tamezohishu::{arguments, judge, Refusal};

const NAME: &str = "ground judge";

/// The most bytes of a line. The longest packet whose length field can be right has 65,542 bytes, three characters each.
const LONGEST_LINE: usize = 1 << 20;

/// How much of the input is read at once, and how many bytes of answers wait at most before they are written.
const PIECE: usize = 1 << 16;

const USAGE: &str = "\
ground judge HEX..
       ground judge < FILE";

const HELP: &str = "\
Each argument is a packet, two hex digits a byte, with or without spaces between bytes. Where there
are none, each line of standard input is one; blank lines are skipped, and # starts a comment.

Each packet is a line on standard output: 0 with the command id, the arguments and the number of
pads, or the number of the refusal, its words and the bytes that decided. The number is the proved
library's; what stands behind it is read off the packet.

A line that is no hex is told on standard error, by its number and column, and has no line on
standard output; the others are answered. There may be any number of lines, and each is answered as
it comes.

Exit status: 0 where all packets were accepted, 1 where one was refused, 2 where a line was no hex
or could not be read.

Examples:
  ground judge '18 01 C0 00 00 05 01 D2 00 0A 05 00'
      prints 0 accepted: command 10, arguments 05, 1 pad
  ground judge 1801C000000300CE0015
      prints 27 XOR not zero: all 10 bytes together give 01
  ground judge < packets.hex
      prints a line for each packet, in their order
  ground build --csv session.csv | cut -sd' ' -f2- | ground judge
      judges what was built";

pub fn command() -> Command {
    Command::new("judge")
        .about("Judges packets: accepted, or why not")
        .override_usage(USAGE)
        .after_help(HELP)
        .arg(
            Arg::new("packets")
                .value_name("HEX")
                .help("A packet in hex, quoted where there are spaces in it")
                .action(ArgAction::Append)
                .num_args(0..),
        )
}

pub fn run(options: &ArgMatches) -> Result<Ending, Vec<String>> {
    let mut out = |answers: &str| print_on(answers);
    let mut tell = |told| say(NAME, &[told]);
    let mut judging = Judging::new(&mut out, &mut tell);
    match options.get_many::<String>("packets") {
        Some(packets) => {
            for (number, text) in (1..).zip(packets) {
                judging.take(&Place("argument", number), text)?;
            }
        }
        None => judging.take_lines(io::stdin().lock())?,
    }
    judging.write()?;
    Ok(judging.ending())
}

/// Where a packet stands, as messages say it.
struct Place(&'static str, u64);

impl Display for Place {
    fn fmt(&self, f: &mut fmt::Formatter<'_>) -> fmt::Result {
        write!(f, "{} {}", self.0, self.1)
    }
}

/// Writes answers, and gives whether somebody reads them still.
type Out<'a> = &'a mut dyn FnMut(&str) -> Result<bool, Vec<String>>;

/// A run of packets. It holds one of them and the answers that are not written yet, however many there are.
struct Judging<'a> {
    out: Out<'a>,
    say: &'a mut dyn FnMut(String),
    packet: Vec<u8>,
    answers: String,
    /// Whether a packet was refused.
    refused: bool,
    /// Whether something was no packet at all.
    unread: bool,
}

impl<'a> Judging<'a> {
    fn new(out: Out<'a>, say: &'a mut dyn FnMut(String)) -> Judging<'a> {
        Judging {
            out,
            say,
            packet: Vec::new(),
            answers: String::new(),
            refused: false,
            unread: false,
        }
    }

    fn ending(&self) -> Ending {
        match (self.unread, self.refused) {
            (true, _) => Ending::Misused,
            (_, true) => Ending::Refused,
            _ => Ending::Done,
        }
    }

    /// Writes the answers that wait, and gives whether somebody reads them still.
    fn write(&mut self) -> Result<bool, Vec<String>> {
        let read = self.answers.is_empty() || (self.out)(&self.answers)?;
        self.answers.clear();
        Ok(read)
    }

    /// Tells of what is no packet, behind the answers to those before it.
    fn tell(&mut self, told: String) -> Result<(), Vec<String>> {
        self.unread = true;
        self.write()?;
        (self.say)(told);
        Ok(())
    }

    /// Judges the packet that a text says.
    fn take(&mut self, place: &Place, text: &str) -> Result<(), Vec<String>> {
        self.packet.clear();
        for word in words(text) {
            if let Err(told) = append_bytes(word.text, &mut self.packet) {
                let column = word.column + told.column() - 1;
                return self.tell(format!("{place}, column {column}: {told}"));
            }
        }
        self.refused |= !append_answer(&self.packet, &mut self.answers);
        Ok(())
    }

    /// Judges the packets of a text, a line each, until it ends or nobody reads the answers.
    fn take_lines(&mut self, input: impl Read) -> Result<(), Vec<String>> {
        let failed = |told: io::Error| vec![format!("standard input: {told}")];
        let mut input = BufReader::with_capacity(PIECE, input);
        let (mut line, mut empty) = (Vec::new(), true);
        for number in 1.. {
            // What was answered is out before more is waited for, so that who sends one packet after the other sees it.
            let waits = !input.buffer().contains(&b'\n');
            if (waits || self.answers.len() >= PIECE) && !self.write()? {
                return Ok(());
            }
            line.clear();
            let mut start = input.by_ref().take(LONGEST_LINE as u64 + 1);
            if start.read_until(b'\n', &mut line).map_err(failed)? == 0 {
                break;
            }
            let place = Place("line", number);
            let mut text = line.strip_suffix(b"\n").unwrap_or(&line);
            if text.len() > LONGEST_LINE {
                empty = false;
                self.tell(format!("{place}: more than 1 MiB"))?;
                input.skip_until(b'\n').map_err(failed)?;
                continue;
            }
            if number == 1 {
                match behind_mark(text) {
                    Some(behind) => text = behind,
                    None => return self.tell(format!("standard input is {UTF_16}")),
                }
            }
            // A byte that is not UTF-8 becomes a character that is no hex digit.
            let text = String::from_utf8_lossy(text);
            let text = before_comment(&text);
            if !text.is_empty() {
                empty = false;
                self.take(&place, text)?;
            }
        }
        if empty {
            (self.say)("no packet on standard input".to_string());
        }
        Ok(())
    }
}

/// Appends the line of a packet, and gives whether it is accepted. The verdict is the library's; the bytes are looked at for
/// words alone.
fn append_answer(packet: &[u8], line: &mut String) -> bool {
    let judged = judge(packet);
    // Nothing that is written to a String fails.
    let _ = match judged {
        Ok(judged) => append_accepted(judged.id, packet, line),
        Err(refusal) => append_refused(refusal, packet, line),
    };
    line.push('\n');
    judged.is_ok()
}

fn append_accepted(id: u16, packet: &[u8], line: &mut String) -> fmt::Result {
    let arguments = arguments(packet);
    write!(line, "0 accepted: command {id}, ")?;
    if arguments.is_empty() {
        line.push_str("no arguments");
    } else {
        line.push_str("arguments");
        append_spaced(arguments, line);
    }
    // Ten bytes stand before the arguments, and what stands behind them is pads.
    let pads = packet.len().saturating_sub(10 + arguments.len());
    write!(line, ", {}", counted(pads, "pad"))
}

fn append_refused(refusal: Refusal, packet: &[u8], line: &mut String) -> fmt::Result {
    write!(line, "{} {refusal}", refusal.number())?;
    match deciding(refusal, packet) {
        Some(seen) => write!(line, ": {seen}"),
        None => Ok(()),
    }
}

/// What decided: the bytes that the rule reads, and what they say.
fn deciding(refusal: Refusal, packet: &[u8]) -> Option<String> {
    let length_field = || match packet.get(4..6) {
        Some(&[high, low]) => Some(u16::from_be_bytes([high, low])),
        _ => None,
    };
    // Bytes 4 and 5 hold the data length less one.
    let data_and_pads = || {
        let data = 1 + u32::from(length_field()?);
        let pads = counted(usize::from(packet.get(6)? & 0x7F), "pad");
        Some(format!(
            "data length {data} (bytes 4 and 5), {pads} (byte 6)"
        ))
    };
    let first = || packet.first();
    match refusal {
        Refusal::Short => Some(counted(packet.len(), "byte")),
        Refusal::BadSize => {
            let (size, field) = (packet.len(), length_field()?);
            Some(format!(
                "{size} bytes, length field {field} (bytes 4 and 5)"
            ))
        }
        Refusal::BadVersion => first().map(|b| format!("version {} (byte 0 is {b:02X})", b >> 5)),
        Refusal::BadType => first().map(|b| format!("type {} (byte 0 is {b:02X})", b >> 4 & 1)),
        Refusal::NoSecondary => first().map(|b| format!("flag {} (byte 0 is {b:02X})", b >> 3 & 1)),
        Refusal::BadXor => {
            let xor = packet.iter().fold(0, |xor, byte| xor ^ byte);
            let size = packet.len();
            Some(format!("all {size} bytes together give {xor:02X}"))
        }
        Refusal::ShortData | Refusal::TooLong => data_and_pads(),
        Refusal::Other(_) => None,
    }
}

#[cfg(test)]
mod tests {
    use super::*;
    use crate::cell::bytes;
    use differential::dice::Dice;
    use differential::make::packet;
    use std::collections::BTreeSet;

    const PAD: &str = "18 01 C0 00 00 05 01 D2 00 0A 05 00";

    fn answer(text: &str) -> String {
        let packet = bytes(text).expect("the packet is hex");
        let mut line = String::new();
        append_answer(&packet, &mut line);
        line
    }

    /// How a text ends, its answers, and what is said.
    fn lines(text: impl AsRef<[u8]>) -> (Ending, String, Vec<String>) {
        let (mut answers, mut said) = (String::new(), Vec::new());
        let mut out = |some: &str| {
            answers.push_str(some);
            Ok(true)
        };
        let mut say = |told| said.push(told);
        let mut judging = Judging::new(&mut out, &mut say);
        judging
            .take_lines(text.as_ref())
            .and_then(|()| judging.write())
            .expect("the text is read");
        (judging.ending(), answers, said)
    }

    #[test]
    fn each_answer_has_its_words() {
        for (packet, expected) in [
            (PAD, "0 accepted: command 10, arguments 05, 1 pad"),
            (
                "18 01 C0 00 00 03 00 CE 00 14",
                "0 accepted: command 20, no arguments, no pads",
            ),
            (
                "1FFFFFFF 00 08 82 61 FFFF FFFE 0A 00 00",
                "0 accepted: command 65535, arguments FF FE 0A, 2 pads",
            ),
            ("", "22 packet below 6 bytes: no bytes"),
            ("18", "22 packet below 6 bytes: 1 byte"),
            ("18 01 C0 00 00", "22 packet below 6 bytes: 5 bytes"),
            (
                "18 01 C0 00 00 03 00 CE 00",
                "23 packet size not 7 + length field: 9 bytes, length field 3 (bytes 4 and 5)",
            ),
            (
                "38 01 C0 00 00 03 00 CE 00 14",
                "24 version not 0: version 1 (byte 0 is 38)",
            ),
            (
                "08 01 C0 00 00 03 00 CE 00 14",
                "25 type not telecommand: type 0 (byte 0 is 08)",
            ),
            (
                "10 01 C0 00 00 03 00 CE 00 14",
                "26 no secondary header: flag 0 (byte 0 is 10)",
            ),
            (
                "18 01 C0 00 00 03 00 CE 00 15",
                "27 XOR not zero: all 10 bytes together give 01",
            ),
            (
                "18 01 C0 00 00 05 03 D0 00 0A 05 00",
                "28 data length - pads below 4: data length 6 (bytes 4 and 5), 3 pads (byte 6)",
            ),
        ] {
            assert_eq!(answer(packet), format!("{expected}\n"), "{packet}");
        }
        let long = format!("18 01 C0 00 01 03 80 5B 00 00 {}", "00".repeat(256));
        let told =
            "29 more than 255 arguments: data length 260 (bytes 4 and 5), no pads (byte 6)\n";
        assert_eq!(answer(&long), told);
    }

    #[test]
    fn what_has_no_name_has_its_number_alone() {
        let mut line = String::new();
        assert!(append_refused(Refusal::Other(35), &[], &mut line).is_ok());
        assert_eq!(line, "35 number 35, which has no name");
        // A byte that is not there is not made up.
        for refusal in [Refusal::BadSize, Refusal::BadVersion, Refusal::TooLong] {
            assert_eq!(deciding(refusal, &[]), None);
        }
    }

    /// The number, and where the packet is accepted its id, arguments and pads, are those of the independent reading.
    #[test]
    fn made_up_packets_get_the_numbers_of_the_reading() {
        let mut met = BTreeSet::new();
        let (mut packet, mut line) = (Vec::new(), String::new());
        for case in 0..20_000 {
            packet::any(&mut Dice::new(16, 0, case), &mut packet);
            line.clear();
            let accepted = append_answer(&packet, &mut line);
            let reading = reading::judge(&packet);
            met.insert(reading.answer);
            assert_eq!(accepted, reading.answer == 0, "case {case}");
            let number = format!("{} ", reading.answer);
            assert!(line.starts_with(&number), "case {case}: {line}");
            if accepted {
                let (offset, length) = reading::arguments(&packet);
                let mut arguments = String::new();
                append_spaced(&packet[offset..offset + length], &mut arguments);
                let arguments = match length {
                    0 => "no arguments".to_string(),
                    _ => format!("arguments{arguments}"),
                };
                let pads = counted(usize::from(packet[6] & 0x7F), "pad");
                let id = reading.id;
                let expected = format!("0 accepted: command {id}, {arguments}, {pads}\n");
                assert_eq!(line, expected, "case {case}");
            }
        }
        let all: Vec<u8> = met.into_iter().collect();
        assert_eq!(all, [0, 22, 23, 24, 25, 26, 27, 28, 29]);
    }

    const ACCEPTED: &str = "0 accepted: command 10, arguments 05, 1 pad\n";
    const HEX: &str = "expected two hex digits a byte, with or without spaces between bytes";

    #[test]
    fn lines_have_comments_and_blanks_between_them() {
        let text = format!("\u{feff}{PAD}\r\n\n  # nothing\n\t18 01\tC0# cut\n{PAD}");
        let short = "22 packet below 6 bytes: 3 bytes\n";
        let answers = format!("{ACCEPTED}{short}{ACCEPTED}");
        assert_eq!(lines(text), (Ending::Refused, answers, vec![]));
        let one = (Ending::Done, ACCEPTED.to_string(), vec![]);
        assert_eq!(lines(PAD.replace(' ', "")), one);
        let none = vec!["no packet on standard input".to_string()];
        let none = (Ending::Done, String::new(), none);
        assert_eq!(lines(""), none);
        assert_eq!(lines(" # nothing\r\n\n"), none);
    }

    #[test]
    fn a_line_that_is_no_packet_stops_none() {
        let too_long = "0".repeat(LONGEST_LINE + 1);
        let bad: [(&[u8], String); 6] = [
            (
                b"18 0G",
                format!("line 2, column 5: 'G' is no hex digit: {HEX}"),
            ),
            (
                b"18 0 1",
                format!("line 2, column 4: \"0\" has an odd number of digits: {HEX}"),
            ),
            (
                b" 1801C",
                format!("line 2, column 2: \"1801C\" has an odd number of digits: {HEX}"),
            ),
            (
                b"18\t\xFF1",
                format!("line 2, column 4: '\u{fffd}' is no hex digit: {HEX}"),
            ),
            (
                b"18\xC2\xA001",
                format!("line 2, column 3: '\\u{{a0}}' is no hex digit: {HEX}"),
            ),
            (too_long.as_bytes(), "line 2: more than 1 MiB".to_string()),
        ];
        for (line, told) in bad {
            let text = [PAD.as_bytes(), line, PAD.as_bytes()].join(&b'\n');
            let answers = ACCEPTED.repeat(2);
            assert_eq!(lines(text), (Ending::Misused, answers, vec![told]));
        }
        // Where something was refused too, the exit status tells of what could not be read.
        assert_eq!(lines("18\nx\n").0, Ending::Misused);
    }

    #[test]
    fn the_longest_line_is_judged() {
        let (ending, answers, said) = lines("00".repeat(LONGEST_LINE / 2));
        assert_eq!((ending, said), (Ending::Refused, vec![]));
        let told =
            "23 packet size not 7 + length field: 524288 bytes, length field 0 (bytes 4 and 5)";
        assert_eq!(answers, format!("{told}\n"));
    }

    #[test]
    fn a_text_in_utf_16_is_told() {
        let told = vec!["standard input is in UTF-16: expected UTF-8".to_string()];
        let expected = (Ending::Misused, String::new(), told);
        assert_eq!(lines(b"\xFF\xFE1\x008\x00\n\x00"), expected);
    }

    /// Input that comes in pieces, and what was answered when each was asked for.
    struct Pieces<'a> {
        left: Vec<&'static str>,
        answered: &'a std::cell::Cell<usize>,
        seen: Vec<usize>,
    }

    impl Read for Pieces<'_> {
        fn read(&mut self, buffer: &mut [u8]) -> io::Result<usize> {
            self.seen.push(self.answered.get());
            let Some(piece) = self.left.pop() else {
                return Ok(0);
            };
            buffer[..piece.len()].copy_from_slice(piece.as_bytes());
            Ok(piece.len())
        }
    }

    #[test]
    fn answers_are_out_before_more_is_waited_for() {
        let answered = std::cell::Cell::new(0);
        let mut out = |some: &str| {
            answered.set(answered.get() + some.lines().count());
            Ok(true)
        };
        let mut pieces = Pieces {
            left: vec!["C0\n", "18\n18\n18 01", "18\n"],
            answered: &answered,
            seen: Vec::new(),
        };
        let mut say = |_| {};
        let mut judging = Judging::new(&mut out, &mut say);
        judging
            .take_lines(&mut pieces)
            .expect("the pieces are read");
        assert_eq!(pieces.seen, [0, 1, 3, 4]);
    }

    #[test]
    fn nothing_more_is_read_when_nobody_reads_the_answers() {
        let mut out = |_: &str| Ok(false);
        let mut say = |_| {};
        let mut judging = Judging::new(&mut out, &mut say);
        let much = 16 * PIECE as u64;
        let mut left = io::repeat(b'\n').take(much);
        let input = (&b"18\n"[..]).chain(&mut left);
        judging.take_lines(input).expect("the input is read");
        assert_eq!(judging.ending(), Ending::Refused);
        assert!(left.limit() >= much - PIECE as u64, "{} left", left.limit());
    }

    #[test]
    fn output_that_fails_ends_it() {
        let mut out = |_: &str| Err(vec!["full".to_string()]);
        let mut say = |_| {};
        let mut judging = Judging::new(&mut out, &mut say);
        let told = judging.take_lines(&b"18\n"[..]);
        assert_eq!(told, Err(vec!["full".to_string()]));
    }
}
