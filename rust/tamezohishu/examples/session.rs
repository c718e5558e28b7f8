//! Configuration C of document 01 and its session, by the proved library. It prints what was loaded, and then the answers of the
//! paper: `bin/cargo run -p tamezohishu --example session`

use std::error::Error;
use std::fmt::Display;
use std::io::{stderr, stdout, ErrorKind, Write};
use std::process::ExitCode;
use tamezohishu::{check_archive, Configuration, LoadError, ROOM};
use Event::{Fault, Packet, Tick};

enum Event {
    Packet(&'static [u8]),
    Tick,
    Fault(u16),
}

/// Ground source 1, fault source 2, own ids from 100; commands 10 and 20, 20 protected; fault 7 answers with command 10.
const C: [u8; 42] = [
    0x06, 0x00, 0x01, 0x00, 0x01, 0x00, 0x02, 0x00, 0x64, 0x00, // basics
    0x03, 0x00, 0x02, 0x00, 0x0A, 0x00, 0x01, // route
    0x03, 0x00, 0x02, 0x00, 0x14, 0x00, 0x02, // route
    0x02, 0x00, 0x03, 0x00, 0x14, 0x00, // protected
    0x08, 0x00, 0x04, 0x00, 0x07, 0x00, 0x0A, 0x00, 0x01, 0x01, 0x01, 0xAA, // fault row
];
const G: Event = Packet(b"\x18\x01\xC0\x00\x00\x03\x00\xCE\x00\x14");
const ARM: Event = Packet(b"\x18\x01\xC0\x00\x00\x04\x00\xBB\x00\x64\x02");
const PAD: Event = Packet(b"\x18\x01\xC0\x00\x00\x05\x01\xD2\x00\x0A\x05\x00");

fn main() -> ExitCode {
    match run() {
        Ok(()) => ExitCode::SUCCESS,
        Err(told) => {
            // Where standard error can't be written to, the exit status alone tells.
            let _ = writeln!(stderr(), "session: {told}");
            ExitCode::FAILURE
        }
    }
}

/// Prints a line. A reader that has gone, as `head` does once it has enough, is no failure.
fn print(line: impl Display) -> Result<(), String> {
    match writeln!(stdout(), "{line}") {
        Err(told) if told.kind() != ErrorKind::BrokenPipe => {
            Err(format!("standard output: {told}"))
        }
        _ => Ok(()),
    }
}

fn refused(told: LoadError) -> String {
    format!("image refused with {}: {told}", told.refusal.number())
}

fn loaded(configuration: &Configuration) -> String {
    let routes = configuration.routes().count();
    let protected = configuration.protected_ids().len();
    let rows = configuration.fault_rows().count();
    format!("loaded: routes {routes}, protected ids {protected}, fault rows {rows}")
}

fn run() -> Result<(), Box<dyn Error>> {
    check_archive()?;
    let session = [
        G,
        ARM,
        Tick,
        G,
        ARM,
        Tick,
        Tick,
        G,
        PAD,
        Fault(7),
        Fault(7),
        Fault(8),
    ];
    let (configuration, mut state) = Configuration::load(&C).map_err(refused)?;
    print(loaded(&configuration))?;
    let mut out = [0; ROOM];
    for event in session {
        let answer = match event {
            Packet(packet) => state.packet(&configuration, packet, &mut out),
            Tick => state.tick(&configuration),
            Fault(fault) => state.fault(&configuration, fault, &mut out),
        };
        print(answer)?;
    }
    Ok(())
}
