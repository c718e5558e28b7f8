//! Sessions told in words: by hand, one for each answer, and made up, beside the independent reading.

use super::pieces::{Pieces, PIECE};
use super::progress::Progress;
use super::session::{tell, Broken, End, Telling};
use super::table::{Table, COLUMNS};
use super::text::Lines;
use crate::cell::bytes;
use differential::dice::Dice;
use differential::make::event::{self, Event};
use differential::make::image::Plan;
use reading::{Config, Run};
use std::collections::BTreeSet;
use std::io::{self, BufWriter, ErrorKind, Read, Write};
use tamezohishu::{build, Configuration, Fields, Outcome, Recording, Stop};

/// Configuration C of document 01.
const C: [u8; 42] = [
    6, 0, 1, 0, 1, 0, 2, 0, 100, 0, 3, 0, 2, 0, 10, 0, 1, 3, 0, 2, 0, 20, 0, 2, 2, 0, 3, 0, 20, 0,
    8, 0, 4, 0, 7, 0, 10, 0, 1, 1, 1, 0xAA,
];

/// Tells a session under an image that loads.
fn session(image: &[u8], input: impl Read, out: impl Write, csv: bool) -> Result<End, Broken> {
    let (configuration, mut state) = Configuration::load(image).expect("the image is good");
    let out = BufWriter::new(out);
    let mut telling: Box<dyn Telling> = match csv {
        true => Box::new(Table::new(out)),
        false => Box::new(Lines::new(out)),
    };
    let mut pieces = Pieces::new(input);
    let mut progress = Progress::none();
    let telling = telling.as_mut();
    tell(
        &configuration,
        &mut state,
        &mut pieces,
        telling,
        &mut progress,
    )
}

/// The text of a session and how it ended.
fn told(image: &[u8], input: impl Read, csv: bool) -> (String, End) {
    let mut out = Vec::new();
    let end = session(image, input, &mut out, csv).expect("nothing is broken");
    (String::from_utf8(out).expect("it is text"), end)
}

fn packet(id: u16, arguments: &[u8]) -> Vec<u8> {
    let fields = Fields {
        apid: 1,
        count: 0,
        id,
        arguments,
        pads: 0,
    };
    build(&fields).expect("the packet is built")
}

/// Reads so many bytes at a time, at most.
struct Few<R>(R, usize);

impl<R: Read> Read for Few<R> {
    fn read(&mut self, room: &mut [u8]) -> io::Result<usize> {
        let most = room.len().min(self.1);
        self.0.read(&mut room[..most])
    }
}

// ---- by hand ----

/// Events, one behind another.
#[derive(Default)]
struct Events(Recording);

impl Events {
    fn packet(mut self, packet: &[u8]) -> Events {
        self.0.packet(packet).expect("it fits a record");
        self
    }

    fn command(self, id: u16, arguments: &[u8]) -> Events {
        self.packet(&packet(id, arguments))
    }

    fn tick(mut self) -> Events {
        self.0.tick();
        self
    }

    fn fault(mut self, fault: u16) -> Events {
        self.0.fault(fault);
        self
    }

    /// What stands between the time and the counters of each line.
    fn lines(&self, image: &[u8]) -> Vec<String> {
        let (text, end) = told(image, self.0.as_bytes(), false);
        assert_eq!(end, End::Whole);
        let lines = text.lines().filter(|line| line.starts_with("event "));
        let middle = lines.map(|line| {
            let behind = line.split_once(": ").expect("a colon behind the time").1;
            behind
                .rsplit_once(" | ")
                .expect("a bar before the counters")
                .0
                .to_string()
        });
        middle.collect()
    }
}

/// C with fault 9 beside fault 7, disabled and not latching, its response the protected command 20; own command 101 protected.
fn larger() -> Vec<u8> {
    let mut image = C[..24].to_vec();
    image.extend([2, 0, 3, 0, 20, 0, 2, 0, 3, 0, 101, 0]);
    image.extend(&C[30..]);
    image.extend([7, 0, 4, 0, 9, 0, 20, 0, 0, 0, 0]);
    image
}

#[test]
fn rejections_in_words() {
    let good = packet(10, &[5]);
    let with = |changes: &[(usize, u8)]| {
        let mut packet = good.clone();
        changes
            .iter()
            .for_each(|(place, byte)| packet[*place] = *byte);
        packet
    };
    let events = Events::default()
        .packet(&[])
        .packet(&good[..5])
        .packet(&good[..10])
        .packet(&with(&[(0, 0x38)]))
        .packet(&with(&[(0, 0x08)]))
        .packet(&with(&[(0, 0x10)]))
        .packet(&with(&[(10, 4)]))
        .packet(&[0x18, 0, 0, 0, 0, 0, 1])
        .packet(&with(&[(6, 2), (7, 0xD0)]));
    let mut long = vec![0; 266];
    long[..6].copy_from_slice(&[0x18, 1, 0xC0, 0, 1, 3]);
    long[7] = 0x18 ^ 1 ^ 0xC0 ^ 1 ^ 3;
    let events = events.packet(&long);
    let shown = "packet of 11 bytes, ";
    let rest = "01 C0 00 00 04 00";
    assert_eq!(
        events.lines(&C),
        [
            "packet of 0 bytes | 22 packet below 6 bytes: it has 0 bytes | unarmed".to_string(),
            "packet of 5 bytes, 18 01 C0 00 00 | 22 packet below 6 bytes: it has 5 bytes | unarmed".to_string(),
            format!("packet of 10 bytes, 18 {rest} D2 00 0A | 23 packet size not 7 + length field: bytes 4 and 5 say 11 bytes, there are 10 | unarmed"),
            format!("{shown}38 {rest} D2 00 0A 05 | 24 version not 0: byte 0 is 38: version 1 | unarmed"),
            format!("{shown}08 {rest} D2 00 0A 05 | 25 type not telecommand: byte 0 is 08: type 0 | unarmed"),
            format!("{shown}10 {rest} D2 00 0A 05 | 26 no secondary header: byte 0 is 10: secondary header flag 0 | unarmed"),
            format!("{shown}18 {rest} D2 00 0A 04 | 27 XOR not zero: the XOR of all bytes is 01; byte 7 is D2, and D3 would make it 00 | unarmed"),
            "packet of 7 bytes, 18 00 00 00 00 00 01 | 27 XOR not zero: the XOR of all bytes is 19 | unarmed".to_string(),
            format!("{shown}18 01 C0 00 00 04 02 D0 00 0A 05 | 28 data length - pads below 4: 5 bytes of data less 2 pads: fewer than 4 | unarmed"),
            "packet of 266 bytes, 18 01 C0 00 01 03 00 DB 00 00 00 00 00 00 00 00 .. | 29 more than 255 arguments: 260 bytes of data less 4 and 0 pads: 256 | unarmed".to_string(),
        ]
    );
}

#[test]
fn armings_in_words() {
    let events = Events::default()
        .tick()
        .command(100, &[1])
        .command(100, &[0])
        .tick()
        .command(20, &[1, 2])
        .tick()
        .command(100, &[3])
        .tick()
        .command(101, &[])
        .command(101, &[])
        .command(100, &[])
        .command(100, &[1])
        .tick()
        .command(20, &[]);
    assert_eq!(
        events.lines(&larger()),
        [
            "tick | 14 tick: unarmed since loading | unarmed",
            "packet, command 100 (arm, timeout 1) | 11 arm taken: for 1 tick | now armed, 1 tick left",
            "packet, command 100 (arm, timeout 0) | 11 arm taken: with no timeout; armed before by event 2 | armed, no timeout",
            "tick | 14 tick: armed by event 3 | armed, no timeout",
            "packet, command 20, 2 arguments 01 02 | 10 command dispatched: protected, armed by event 3 with no timeout | to destination 2: 00 01 00 14 02 01 02 | now unarmed",
            "tick | 14 tick: unarmed since the packet of event 5 at time 2 | unarmed",
            "packet, command 100 (arm, timeout 3) | 11 arm taken: for 3 ticks | now armed, 3 ticks left",
            "tick | 14 tick: armed by event 7 | armed, 2 ticks left",
            "packet, command 101 (reset counters), no arguments | 12 own command done: protected, armed by event 7, 2 ticks left; every counter is zero | now unarmed",
            "packet, command 101 (reset counters), no arguments | 30 protected and unarmed: unarmed since the packet of event 9 at time 4 | unarmed",
            "packet, command 100 (arm), no arguments | 31 own command, wrong argument count: arm takes 1 argument byte, not 0 | unarmed",
            "packet, command 100 (arm, timeout 1) | 11 arm taken: for 1 tick | now armed, 1 tick left",
            "tick | 15 tick that ended the armed state: armed by event 12, and its timeout is over | now unarmed",
            "packet, command 20, no arguments | 30 protected and unarmed: unarmed since the tick of event 13 at time 4 | unarmed",
        ]
    );
}

#[test]
fn own_commands_and_faults_in_words() {
    let events = Events::default()
        .fault(9)
        .command(104, &[0, 9])
        .fault(9)
        .fault(7)
        .fault(7)
        .command(104, &[0, 7])
        .command(107, &[])
        .command(107, &[])
        .command(105, &[0, 7])
        .fault(7)
        .command(106, &[0, 8])
        .command(103, &[1, 2, 3, 4])
        .command(103, &[1])
        .command(102, &[])
        .command(50, &[0; 255])
        .fault(0x0700);
    assert_eq!(
        events.lines(&larger()),
        [
            "fault 9 | 13 fault known, its response disabled or latched: fault row 9 is disabled since loading | unarmed".to_string(),
            "packet, command 104 (enable fault 9) | 12 own command done: fault row 9 now enabled | unarmed".to_string(),
            "fault 9 | 10 command dispatched: fault row 9 was enabled and stays so; a response passes the protection | to destination 2: 00 02 00 14 00 | unarmed".to_string(),
            "fault 7 | 10 command dispatched: fault row 7 was enabled and is latched now | to destination 1: 00 02 00 0A 01 AA | unarmed".to_string(),
            "fault 7 | 13 fault known, its response disabled or latched: fault row 7 is latched since the fault of event 4 at time 0 | unarmed".to_string(),
            "packet, command 104 (enable fault 7) | 12 own command done: fault row 7 stays latched | unarmed".to_string(),
            "packet, command 107 (clear all), no arguments | 12 own command done: fault row 7 now enabled | unarmed".to_string(),
            "packet, command 107 (clear all), no arguments | 12 own command done: no fault row changes | unarmed".to_string(),
            "packet, command 105 (disable fault 7) | 12 own command done: fault row 7 now disabled | unarmed".to_string(),
            "fault 7 | 13 fault known, its response disabled or latched: fault row 7 is disabled since the packet of event 9 at time 0 | unarmed".to_string(),
            "packet, command 106 (clear fault 8) | 32 own command, fault id not in the table: there is no fault row 8 | unarmed".to_string(),
            "packet, command 103 (no-op with argument), 4 arguments 01 02 03 04 | 12 own command done: nothing to be done | unarmed".to_string(),
            "packet, command 103 (no-op with argument), 1 argument 01 | 31 own command, wrong argument count: no-op with argument takes 4 argument bytes, not 1 | unarmed".to_string(),
            "packet, command 102 (no-op), no arguments | 12 own command done: nothing to be done | unarmed".to_string(),
            format!("packet, command 50, 255 arguments {}.. | 33 id neither own nor routed: no route has 50, and own ids are 100 to 107 | unarmed", "00 ".repeat(16)),
            "fault 1792 | 34 fault id not in the table: there is no fault row 1792 | unarmed".to_string(),
        ]
    );
}

/// Clear all names every row that it moved, and the summary every row by its state.
#[test]
fn several_rows_in_words() {
    let mut image = C.to_vec();
    for fault in 8..12 {
        image.extend([7, 0, 4, 0, fault, 0, 10, 0, u8::from(fault != 9), 1, 0]);
    }
    let events = Events::default()
        .fault(7)
        .fault(8)
        .fault(11)
        .command(107, &[])
        .fault(8);
    let lines = events.lines(&image);
    assert!(
        lines[3].contains(": fault rows 7, 8, 11 now enabled |"),
        "{}",
        lines[3]
    );
    let (text, _) = told(&image, events.0.as_bytes(), false);
    let last: Vec<&str> = text.lines().rev().take(2).collect();
    let counts = "A1 R0 D4 P0 U0 I0 F4";
    assert_eq!(
        last,
        [
            format!("at the end: unarmed | {counts} | fault rows disabled: 9; enabled: 7, 10, 11; latched: 8").as_str(),
            "5 events: 1 packet (1 accepted, 0 rejected), 0 ticks, 4 faults; 4 commands dispatched",
        ]
    );
}

#[test]
fn no_events_at_all() {
    let basics = &C[..10];
    let (text, end) = told(basics, io::empty(), false);
    assert_eq!(end, End::Whole);
    let sum =
        "0 events: 0 packets (0 accepted, 0 rejected), 0 ticks, 0 faults; 0 commands dispatched\n";
    assert_eq!(
        text,
        format!("{sum}at the end: unarmed | A0 R0 D0 P0 U0 I0 F0\n")
    );
    let (csv, end) = told(basics, io::empty(), true);
    assert_eq!((csv, end), (format!("{}\n", COLUMNS.join(",")), End::Whole));
}

// ---- bad records ----

/// The session of document 01, with a long packet in it, and where its records begin.
fn recording() -> (Vec<u8>, Vec<usize>) {
    let mut recording = Vec::new();
    let mut starts = Vec::new();
    for event in [
        Event::Packet(packet(20, &[])),
        Event::Packet(packet(100, &[2])),
        Event::Tick,
        Event::Packet(packet(10, &[7; 255])),
        Event::Fault(7),
        Event::Fault(8),
        Event::Packet(Vec::new()),
        Event::Tick,
    ] {
        starts.push(recording.len());
        event.record(&mut recording);
    }
    starts.push(recording.len());
    (recording, starts)
}

#[test]
fn a_recording_cut_at_each_byte() {
    let (recording, starts) = recording();
    let (whole, end) = told(&C, &recording[..], true);
    assert_eq!(end, End::Whole);
    let rows: Vec<&str> = whole.split_inclusive('\n').collect();
    assert_eq!(rows.len(), starts.len());
    for length in 0..=recording.len() {
        let cut = &recording[..length];
        let events = starts.iter().filter(|start| **start <= length).count() - 1;
        let start = starts[events];
        let expected = if start == length {
            End::Whole
        } else {
            End::Stopped {
                stop: Stop::Cut,
                offset: start as u64,
                record: cut[start..].to_vec(),
            }
        };
        // The same whatever the pieces are.
        for few in [1, 3, 100_000] {
            let (csv, end) = told(&C, Few(cut, few), true);
            assert_eq!(
                (&end, csv),
                (&expected, rows[..=events].concat()),
                "{length}"
            );
        }
        let (text, end) = told(&C, cut, false);
        let place = match expected {
            End::Whole => "\nat the end: ",
            End::Stopped { .. } => "\nwhere it stopped: ",
        };
        assert!(text.contains(place), "{length}: {text}");
        assert_eq!(
            (end, text.lines().count()),
            (expected, events + 2),
            "{length}"
        );
    }
}

#[test]
fn bad_records_stop_it() {
    let (recording, starts) = recording();
    let rows = |told: &str| told.lines().count() - 1;
    for (bad, stop, shown) in [
        (&[0, 0, 19, 0][..], Stop::OtherKind, 4),
        (&[2, 0, 15, 0, 1, 2], Stop::OtherKind, 6),
        (&[0, 0, 16, 1], Stop::OtherKind, 4),
        (&[1, 0, 17, 0, 5], Stop::WrongLength, 5),
        (&[1, 0, 18, 0, 7], Stop::WrongLength, 5),
        (&[3, 0, 18, 0, 7, 0, 0], Stop::WrongLength, 7),
        (&[0, 0, 18, 0], Stop::WrongLength, 4),
    ] {
        for behind in [&[][..], &[0, 0, 17, 0, 0, 0, 17, 0]] {
            let (at, events) = (starts[4], 4);
            let bytes = [&recording[..at], bad, behind].concat();
            for few in [1, 3, 100_000] {
                let (csv, end) = told(&C, Few(&bytes[..], few), true);
                let record = bad[..shown].to_vec();
                let offset = at as u64;
                let expected = End::Stopped {
                    stop,
                    offset,
                    record,
                };
                assert_eq!((end, rows(&csv)), (expected, events), "{bad:?}");
            }
        }
    }
    // What is bad already and cut as well may have more to come: it is waited for, and is cut.
    let bytes = [&recording[..starts[1]], &[5, 0, 19, 0, 1]].concat();
    let (csv, end) = told(&C, &bytes[..], true);
    let expected = End::Stopped {
        stop: Stop::Cut,
        offset: starts[1] as u64,
        record: vec![5, 0, 19, 0, 1],
    };
    assert_eq!((end, rows(&csv)), (expected, 1));
}

// ---- long recordings ----

/// The same records again and again, so many bytes of them. No one may ask for more than a piece.
struct Again<'a> {
    records: &'a [u8],
    at: usize,
    left: usize,
}

impl Read for Again<'_> {
    fn read(&mut self, room: &mut [u8]) -> io::Result<usize> {
        assert!(room.len() <= PIECE, "{} bytes at once", room.len());
        let length = room.len().min(self.left);
        let mut place = 0;
        while place < length {
            let from = &self.records[self.at % self.records.len()..];
            let some = from.len().min(length - place);
            room[place..place + some].copy_from_slice(&from[..some]);
            self.at += some;
            place += some;
        }
        self.left -= length;
        Ok(length)
    }
}

/// Keeps the last lines of what is written, and how many lines there were.
#[derive(Default)]
struct Last(Vec<u8>, usize);

impl Write for Last {
    fn write(&mut self, bytes: &[u8]) -> io::Result<usize> {
        self.1 += bytes.iter().filter(|byte| **byte == b'\n').count();
        self.0.extend_from_slice(bytes);
        let more = self.0.len().saturating_sub(400);
        self.0.drain(..more);
        Ok(bytes.len())
    }

    fn flush(&mut self) -> io::Result<()> {
        Ok(())
    }
}

#[test]
fn a_long_recording_is_never_held_whole() {
    // 25,000 times the eight events. A piece is no multiple of their bytes, so that pieces end inside records.
    let (records, _) = recording();
    let input = Again {
        records: &records,
        at: 0,
        left: 25_000 * records.len(),
    };
    let mut out = Last::default();
    assert_ne!(PIECE % records.len(), 0);
    let end = session(&C, input, &mut out, false).expect("nothing is broken");
    assert_eq!((end, out.1), (End::Whole, 200_002));
    let text = String::from_utf8(out.0).expect("it is text");
    // Fault 7 is latched by the first of its events; counters are modulo 65,536.
    let sum = "\n200000 events: 100000 packets (75000 accepted, 25000 rejected), 50000 ticks, 50000 faults; 25001 commands dispatched\n";
    let last =
        "at the end: unarmed | A9464 R25000 D25001 P25000 U0 I0 F50000 | fault rows latched: 7\n";
    assert!(text.ends_with(&format!("{sum}{last}")), "{text}");
}

/// A reader that has gone.
struct Gone(usize);

impl Write for Gone {
    fn write(&mut self, bytes: &[u8]) -> io::Result<usize> {
        if self.0 == 0 {
            return Err(ErrorKind::BrokenPipe.into());
        }
        let taken = bytes.len().min(self.0);
        self.0 -= taken;
        Ok(taken)
    }

    fn flush(&mut self) -> io::Result<()> {
        Ok(())
    }
}

/// Says how many bytes were read of it.
struct Counted<'a, R>(R, &'a mut usize);

impl<R: Read> Read for Counted<'_, R> {
    fn read(&mut self, room: &mut [u8]) -> io::Result<usize> {
        let read = self.0.read(room)?;
        *self.1 += read;
        Ok(read)
    }
}

#[test]
fn it_stops_soon_when_its_reader_has_gone() {
    let (records, _) = recording();
    for csv in [false, true] {
        for taken in [0, 1000] {
            let input = Again {
                records: &records,
                at: 0,
                left: usize::MAX,
            };
            let mut read = 0;
            let end = session(&C, Counted(input, &mut read), Gone(taken), csv);
            let gone = |told: &Broken| matches!(told, Broken::Output(told) if told.kind() == ErrorKind::BrokenPipe);
            assert!(end.as_ref().is_err_and(gone), "{end:?}");
            assert!(read <= 2 * PIECE, "{read} bytes were read");
        }
    }
}

#[test]
fn input_that_fails_is_told_behind_what_was_read() {
    struct Fails;
    impl Read for Fails {
        fn read(&mut self, _: &mut [u8]) -> io::Result<usize> {
            Err(ErrorKind::PermissionDenied.into())
        }
    }
    let (records, starts) = recording();
    let mut out = Vec::new();
    let end = session(&C, records[..starts[3] + 2].chain(Fails), &mut out, true);
    assert!(matches!(end, Err(Broken::Input(_))), "{end:?}");
    assert_eq!(out.iter().filter(|byte| **byte == b'\n').count(), 4);
    // What can't be read at all gets no header row.
    let mut out = Vec::new();
    let end = session(&C, Fails, &mut out, true);
    assert!(matches!(end, Err(Broken::Input(_))) && out.is_empty());
}

// ---- beside the independent reading ----

/// What the reading says of an event, and which earlier events its states are from.
struct Expected<'a> {
    config: &'a Config,
    number: usize,
    time: usize,
    event: &'a Event,
    before: &'a Run,
    after: &'a Run,
    answer: reading::Answer,
    command: &'a [u8],
    past: &'a Since,
}

/// The words for the event that the arm record and each row have their states from.
struct Since {
    arm: String,
    arm_event: usize,
    rows: Vec<String>,
}

fn kind(event: &Event) -> &'static str {
    match event {
        Event::Packet(_) => "packet",
        Event::Tick => "tick",
        Event::Fault(_) => "fault",
    }
}

fn record(event: &Event) -> Vec<u8> {
    let mut bytes = Vec::new();
    event.record(&mut bytes);
    bytes
}

impl Expected<'_> {
    /// Every number of a row of the table.
    fn check_row(&self, row: &csv::StringRecord) {
        let cell = |name: &str| {
            let place = COLUMNS.iter().position(|column| *column == name);
            row.get(place.expect("a column")).expect("a cell")
        };
        let number = |name: &str| cell(name).parse::<usize>().expect("a number");
        let (answer, run) = (self.answer, self.after);
        assert_eq!(row.len(), COLUMNS.len());
        assert_eq!(number("event"), self.number);
        assert_eq!(number("time"), self.time);
        assert_eq!(cell("kind"), kind(self.event));
        assert_eq!(bytes(cell("bytes")), Ok(record(self.event)[4..].to_vec()));
        assert_eq!(number("answer"), usize::from(answer.answer));
        assert_eq!(cell("words"), Outcome::from(answer.answer).to_string());
        assert_eq!(number("id"), usize::from(answer.id));
        assert_eq!(number("destination"), usize::from(answer.dest));
        assert_eq!(number("written"), usize::from(answer.written));
        assert_eq!(bytes(cell("command")), Ok(self.command.to_vec()));
        assert_eq!(number("armed"), usize::from(run.armed));
        assert_eq!(number("ticks"), usize::from(run.ticks));
        for (letter, count) in ["A", "R", "D", "P", "U", "I", "F"].iter().zip(run.counts) {
            assert_eq!(number(letter), usize::from(count), "{letter}");
        }
        let why = cell("why");
        for words in self.why() {
            assert!(why.contains(&words), "{why:?} without {words:?}");
        }
    }

    /// The numbers of a line of text.
    fn check_line(&self, line: &str) {
        let (run, answer) = (self.after, self.answer);
        let start = format!(
            "event {}, time {}: {}",
            self.number,
            self.time,
            kind(self.event)
        );
        assert!(line.starts_with(&start), "{line}");
        let words = Outcome::from(answer.answer);
        let answered = format!(" | {} {words}: ", answer.answer);
        assert!(line.contains(&answered), "{line}");
        if answer.id != 0 && matches!(self.event, Event::Packet(_)) {
            assert!(
                line.contains(&format!("packet, command {}", answer.id)),
                "{line}"
            );
        }
        let sent = format!(" | to destination {}:", answer.dest);
        assert_eq!(
            line.contains(" | to destination "),
            answer.answer == 10,
            "{line}"
        );
        if answer.answer == 10 {
            let behind = line.split_once(&sent).expect("the destination").1;
            let hex = behind.split(" | ").next().expect("the command").trim();
            assert_eq!(bytes(hex), Ok(self.command.to_vec()));
        }
        let arm = match (run.armed, run.ticks) {
            (false, _) => "unarmed".to_string(),
            (true, 0) => "armed, no timeout".to_string(),
            (true, 1) => "armed, 1 tick left".to_string(),
            (true, ticks) => format!("armed, {ticks} ticks left"),
        };
        let now = if run.armed == self.before.armed {
            ""
        } else {
            "now "
        };
        let [a, r, d, p, u, i, f] = run.counts;
        let end = format!(" | {now}{arm} | A{a} R{r} D{d} P{p} U{u} I{i} F{f}");
        assert!(line.ends_with(&end), "{line} without {end}");
    }

    /// What the why has to say, by the reading's own numbers.
    fn why(&self) -> Vec<String> {
        let (config, before) = (self.config, self.before);
        let answer = self.answer;
        let packet: &[u8] = match self.event {
            Event::Packet(packet) => packet,
            _ => &[],
        };
        let state = |state: u8| ["disabled", "enabled", "latched"][usize::from(state)];
        let row = |fault: u16| {
            let ids = &config.faultids[..config.nrows];
            ids.iter().position(|id| *id == fault)
        };
        let mut words = match (answer.answer, self.event) {
            (10, Event::Fault(fault)) => {
                let k = row(*fault).expect("a row");
                assert_eq!(before.states[k], 1);
                let ends = match self.after.states[k] {
                    1 => "stays so".to_string(),
                    other => format!("is {} now", state(other)),
                };
                vec![format!("fault row {fault} was enabled and {ends}")]
            }
            (11, _) => vec![match self.after.ticks {
                0 => "with no timeout".to_string(),
                1 => "for 1 tick".to_string(),
                ticks => format!("for {ticks} ticks"),
            }],
            (12, _) => {
                let moved =
                    (0..config.nrows).filter(|k| before.states[*k] != self.after.states[*k]);
                let named = moved.map(|k| config.faultids[k].to_string());
                named.collect()
            }
            (13, Event::Fault(fault)) => {
                let k = row(*fault).expect("a row");
                let (state, since) = (state(before.states[k]), &self.past.rows[k]);
                vec![format!("fault row {fault} is {state} since {since}")]
            }
            (14, _) if !before.armed => vec![format!("unarmed since {}", self.past.arm)],
            (14 | 15, _) => vec![format!("armed by event {}", self.past.arm_event)],
            (22, _) => vec![format!("it has {} byte", packet.len())],
            (23, _) => {
                let said = 7 + usize::from(u16::from_be_bytes([packet[4], packet[5]]));
                assert_ne!(said, packet.len());
                vec![format!("say {said} bytes, there are {}", packet.len())]
            }
            (24, _) => vec![format!("{:02X}: version {}", packet[0], packet[0] >> 5)],
            (25, _) => vec![format!("{:02X}: type 0", packet[0])],
            (26, _) => vec![format!("{:02X}: secondary header flag 0", packet[0])],
            (27, _) => {
                let xor = packet.iter().fold(0, |xor, byte| xor ^ byte);
                let mut words = vec![format!("is {xor:02X}")];
                if packet.len() > 7 {
                    // With the byte that is proposed, the reading no longer refuses the XOR.
                    let mut mended = packet.to_vec();
                    mended[7] ^= xor;
                    assert_ne!(reading::judge(&mended).answer, 27);
                    words.push(format!("and {:02X} would", mended[7]));
                }
                words
            }
            (28, _) => vec![format!("{} byte", packet.len() - 6)],
            (29, _) => {
                let count = packet.len() - 10 - usize::from(packet[6] & 0x7F);
                assert!(count > 255);
                vec![format!(": {count}")]
            }
            (30, _) => vec![format!("unarmed since {}", self.past.arm)],
            (31, _) => vec![format!(", not {}", reading::judge(packet).count)],
            (32, _) => {
                let fault = u16::from_be_bytes([packet[10], packet[11]]);
                vec![format!("no fault row {fault}")]
            }
            (33, _) => vec![format!("no route has {}", answer.id)],
            (34, Event::Fault(fault)) => vec![format!("no fault row {fault}")],
            _ => Vec::new(),
        };
        let protected = config.protected[..config.nprotected].contains(&answer.id);
        match (answer.answer, self.event) {
            (10 | 12 | 31 | 32, Event::Packet(_)) if protected => {
                assert!(before.armed);
                words.push(format!("protected, armed by event {}", self.past.arm_event));
                words.push(match before.ticks {
                    0 => "with no timeout".to_string(),
                    1 => "1 tick left".to_string(),
                    ticks => format!("{ticks} ticks left"),
                });
            }
            (10, Event::Packet(_)) => words.push("not protected".to_string()),
            _ => {}
        }
        words
    }
}

/// Tells made-up events in both forms, in pieces of any size, and compares every line with the reading.
fn compare(dice: &mut Dice, image: &[u8], events: &[Event], met: &mut BTreeSet<u8>) {
    let recording: Vec<u8> = events.iter().flat_map(record).collect();
    let few = dice.from(1, recording.len().max(1));
    let (csv, end) = told(image, Few(&recording[..], few), true);
    assert_eq!(end, End::Whole);
    let (text, end) = told(image, Few(&recording[..], few), false);
    assert_eq!(end, End::Whole);
    let mut rows = csv::Reader::from_reader(csv.as_bytes());
    let header = rows.headers().expect("a header row").clone();
    assert_eq!(header, COLUMNS[..]);
    let mut rows = rows.records();
    let mut lines = text.lines();

    let loaded = reading::load(image);
    let (config, mut run) = (loaded.config, loaded.run);
    let mut past = Since {
        arm: "loading".to_string(),
        arm_event: 0,
        rows: vec!["loading".to_string(); config.nrows],
    };
    let mut time = 0;
    for (k, event) in events.iter().enumerate() {
        let before = run.clone();
        let mut out = [0; 260];
        let answer = match event {
            Event::Packet(packet) => reading::step_packet(&config, &mut run, packet, &mut out),
            Event::Tick => reading::step_tick(&config, &mut run),
            Event::Fault(fault) => reading::step_fault(&config, &mut run, *fault, &mut out),
        };
        met.insert(answer.answer);
        let expected = Expected {
            config: &config,
            number: k + 1,
            time,
            event,
            before: &before,
            after: &run,
            answer,
            command: &out[..usize::from(answer.written)],
            past: &past,
        };
        expected.check_row(&rows.next().expect("a row").expect("a good one"));
        expected.check_line(lines.next().expect("a line"));
        let this = format!("the {} of event {} at time {time}", kind(event), k + 1);
        if before.armed != run.armed || answer.answer == 11 {
            past.arm = this.clone();
            past.arm_event = k + 1;
        }
        for row in 0..config.nrows {
            if before.states[row] != run.states[row] {
                past.rows[row] = this.clone();
            }
        }
        time += usize::from(matches!(event, Event::Tick));
    }
    assert!(rows.next().is_none());
    assert_eq!(lines.count(), 2);
}

#[test]
fn made_up_sessions_are_told_as_the_reading_has_them() {
    let mut met = BTreeSet::new();
    for case in 0..1000 {
        let mut dice = Dice::new(16, 1, case);
        let image = Plan::good(&mut dice).image();
        let loaded = reading::load(&image);
        assert_eq!(loaded.answer, 0);
        let n = dice.from(0, 40);
        let events: Vec<Event> = (0..n)
            .map(|_| event::any(&mut dice, &loaded.config))
            .collect();
        compare(&mut dice, &image, &events, &mut met);
    }
    // Every answer but those of a damaged state and of too little room, which no recording meets.
    let all: Vec<u8> = (10..=15).chain(22..=34).collect();
    assert_eq!(met.into_iter().collect::<Vec<u8>>(), all);
}
