//! The session as lines of text, and a short summary at its end.

use super::event::Event;
use super::hex::Hex;
use super::session::{End, Sum, Telling};
use super::why::Why;
use super::words::{row_of, Arm, Counts, Many, What};
use std::fmt::{self, Write as _};
use std::io::{self, Write};
use tamezohishu::{Configuration, FaultState, State};

pub struct Lines<W> {
    out: W,
    /// The why of an event; kept, so that not each asks for memory.
    why: String,
}

impl<W: Write> Lines<W> {
    pub fn new(out: W) -> Lines<W> {
        Lines {
            out,
            why: String::new(),
        }
    }
}

impl<W: Write> Telling for Lines<W> {
    fn begin(&mut self) -> io::Result<()> {
        Ok(())
    }

    fn event(&mut self, event: &Event) -> io::Result<()> {
        let Event { number, time, .. } = event;
        let outcome = event.answer.outcome;
        let (came, answer) = (What(event), outcome.number());
        let out = &mut self.out;
        write!(
            out,
            "event {number}, time {time}: {came} | {answer} {outcome}"
        )?;
        self.why.clear();
        // A string takes whatever is written to it.
        let _ = write!(self.why, "{}", Why(event));
        if !self.why.is_empty() {
            write!(out, ": {}", self.why)?;
        }
        if !event.command.is_empty() {
            let (destination, command) = (event.answer.destination, Hex(event.command));
            write!(out, " | to destination {destination}: {command}")?;
        }
        let (before, after) = (event.before, event.after);
        let counts = Counts(after.counters());
        writeln!(out, " | {} | {counts}", Arm { before, after })
    }

    fn end(
        &mut self,
        end: &End,
        sum: &Sum,
        configuration: &Configuration,
        state: &State,
    ) -> io::Result<()> {
        let out = &mut self.out;
        let packets = Many(sum.accepted + sum.rejected, "packet");
        let (events, ticks) = (Many(sum.events, "event"), Many(sum.ticks, "tick"));
        let (accepted, rejected) = (sum.accepted, sum.rejected);
        let faults = Many(sum.faults, "fault");
        let dispatched = Many(sum.dispatched, "command");
        writeln!(
            out,
            "{events}: {packets} ({accepted} accepted, {rejected} rejected), {ticks}, {faults}; {dispatched} dispatched"
        )?;
        let arm = Arm {
            before: state,
            after: state,
        };
        let (counts, rows) = (Counts(state.counters()), Rows(configuration, state));
        // More may have happened behind a bad record: what is told here is no end then.
        let place = match end {
            End::Whole => "at the end",
            End::Stopped { .. } => "where it stopped",
        };
        writeln!(out, "{place}: {arm} | {counts}{rows}")
    }

    fn flush(&mut self) -> io::Result<()> {
        self.out.flush()
    }
}

/// The fault rows by their states, after a bar; nothing where there are no rows.
struct Rows<'a>(&'a Configuration, &'a State);

impl fmt::Display for Rows<'_> {
    fn fmt(&self, f: &mut fmt::Formatter<'_>) -> fmt::Result {
        let mut before = " | fault rows ";
        for state in FaultState::NAMED {
            let rows = self.0.fault_rows().zip(self.1.fault_states(self.0));
            let those = rows.filter(|(_, is)| is == state);
            let mut faults = those.map(|(row, _)| row.fault).peekable();
            if faults.peek().is_some() {
                write!(f, "{before}{state}: ")?;
                row_of(faults, f)?;
                before = "; ";
            }
        }
        Ok(())
    }
}
