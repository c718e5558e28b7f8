//! The session as rows of a spreadsheet.

use super::event::Event;
use super::hex::Hex;
use super::session::{End, Sum, Telling};
use super::why::Why;
use super::words::lettered;
use csv::{ErrorKind, Writer};
use std::fmt::{Display, Write as _};
use std::io::{self, Write};
use tamezohishu::{Configuration, State};

pub const COLUMNS: [&str; 20] = [
    "event",
    "time",
    "kind",
    "bytes",
    "answer",
    "words",
    "id",
    "destination",
    "written",
    "command",
    "armed",
    "ticks",
    "A",
    "R",
    "D",
    "P",
    "U",
    "I",
    "F",
    "why",
];

pub struct Table<W: Write> {
    out: Writer<W>,
    /// The text of a cell; kept, so that not each asks for memory.
    cell: String,
}

impl<W: Write> Table<W> {
    pub fn new(out: W) -> Table<W> {
        Table {
            out: Writer::from_writer(out),
            cell: String::new(),
        }
    }

    fn cell(&mut self, shown: impl Display) -> io::Result<()> {
        self.cell.clear();
        // A string takes whatever is written to it.
        let _ = write!(self.cell, "{shown}");
        self.out.write_field(&self.cell).map_err(plain)
    }

    fn end_of_row(&mut self) -> io::Result<()> {
        self.out.write_record(None::<&[u8]>).map_err(plain)
    }
}

/// The error of the output itself, so that a closed pipe can be told from others.
fn plain(told: csv::Error) -> io::Error {
    match told.into_kind() {
        ErrorKind::Io(told) => told,
        other => io::Error::other(format!("{other:?}")),
    }
}

impl<W: Write> Telling for Table<W> {
    fn begin(&mut self) -> io::Result<()> {
        self.out.write_record(COLUMNS).map_err(plain)
    }

    fn event(&mut self, event: &Event) -> io::Result<()> {
        let (answer, state) = (event.answer, event.after);
        self.cell(event.number)?;
        self.cell(event.time)?;
        self.cell(event.came.kind())?;
        self.cell(Hex(event.body))?;
        self.cell(answer.outcome.number())?;
        self.cell(answer.outcome)?;
        self.cell(answer.id)?;
        self.cell(answer.destination)?;
        self.cell(answer.written)?;
        self.cell(Hex(event.command))?;
        self.cell(u8::from(state.is_armed()))?;
        self.cell(state.ticks())?;
        for (_, count) in lettered(&state.counters()) {
            self.cell(count)?;
        }
        self.cell(Why(event))?;
        self.end_of_row()
    }

    /// A sheet has events and nothing else, so that it can be sorted and summed.
    fn end(&mut self, _: &End, _: &Sum, _: &Configuration, _: &State) -> io::Result<()> {
        Ok(())
    }

    fn flush(&mut self) -> io::Result<()> {
        self.out.flush()
    }
}
