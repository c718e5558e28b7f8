//! A session from its recording: each record is handed to the library, and what came of it to whoever tells it. Where a record
//! begins and whether it is good the library says, too.

use super::event::{Came, Event, Past};
use super::pieces::Pieces;
use super::progress::Progress;
use std::io::{self, Read, Write};
use tamezohishu::{Configuration, Outcome, State, Stop, REPLY_ROOM};

/// Tells a session, in one form or another.
pub trait Telling {
    fn begin(&mut self) -> io::Result<()>;
    fn event(&mut self, event: &Event) -> io::Result<()>;
    fn end(
        &mut self,
        end: &End,
        sum: &Sum,
        configuration: &Configuration,
        state: &State,
    ) -> io::Result<()>;
    fn flush(&mut self) -> io::Result<()>;
}

/// How many events there were. The counters of the path wrap and are reset; these do not.
#[derive(Clone, Copy, PartialEq, Eq, Debug, Default)]
pub struct Sum {
    pub events: u64,
    pub accepted: u64,
    pub rejected: u64,
    pub ticks: u64,
    pub faults: u64,
    pub dispatched: u64,
}

impl Sum {
    fn add(&mut self, event: &Event) {
        let outcome = event.answer.outcome;
        self.events += 1;
        self.accepted += u64::from(event.is_accepted());
        self.rejected += u64::from(outcome.is_rejected());
        self.ticks += u64::from(event.came == Came::Tick);
        self.faults += u64::from(matches!(event.came, Came::Fault(_)));
        self.dispatched += u64::from(outcome == Outcome::Dispatched);
    }
}

/// How a session ended that was told as far as its recording goes.
#[derive(PartialEq, Eq, Debug)]
pub enum End {
    /// The recording ended between two records.
    Whole,
    /// A record stopped it, which begins at this byte and with these bytes.
    Stopped {
        stop: Stop,
        offset: u64,
        record: Vec<u8>,
    },
}

/// What can't be read from or written to.
#[derive(Debug)]
pub enum Broken {
    Input(io::Error),
    Output(io::Error),
}

/// Tells the session of a recording. What was told is out whenever more of the recording is waited for.
pub fn tell<R: Read, W: Write>(
    configuration: &Configuration,
    state: &mut State,
    pieces: &mut Pieces<R>,
    telling: &mut dyn Telling,
    progress: &mut Progress<W>,
) -> Result<End, Broken> {
    let mut past = Past::default();
    let mut sum = Sum::default();
    // What can't be read at all gets no header row.
    pieces.more().map_err(Broken::Input)?;
    telling.begin().map_err(Broken::Output)?;
    // Room for one reply: the library answers the first record and stops before the next.
    let mut out = [0; REPLY_ROOM];
    let end = loop {
        let before = state.clone();
        let piece = state.resume(configuration, pieces.rest(), &mut out);
        let (stop, read) = (piece.stop, piece.read);
        let Some(reply) = piece.replies().next() else {
            if matches!(stop, Stop::End | Stop::Cut) {
                // The rest of the record may still come.
                telling.flush().map_err(Broken::Output)?;
                progress.at(pieces.read());
                if pieces.more().map_err(Broken::Input)? {
                    continue;
                }
            }
            break ended(stop, pieces);
        };
        let record = pieces.rest().get(..read).unwrap_or_default();
        let event = Event {
            number: sum.events + 1,
            time: sum.ticks,
            body: record.get(4..).unwrap_or_default(),
            came: Came::of(record),
            answer: reply.answer,
            command: reply.command,
            configuration,
            before: &before,
            after: state,
            past: &past,
        };
        telling.event(&event).map_err(Broken::Output)?;
        sum.add(&event);
        let (moment, outcome) = (event.moment(), event.answer.outcome);
        past.keep(moment, outcome, configuration, &before, state);
        pieces.pass(read);
    };
    let told = telling.end(&end, &sum, configuration, state);
    told.and_then(|()| telling.flush())
        .map_err(Broken::Output)?;
    Ok(end)
}

/// How it ends at what is left: nothing, or a record that is bad. Of that no more is kept than it says it has.
fn ended<R: Read>(stop: Stop, pieces: &Pieces<R>) -> End {
    if stop == Stop::End {
        return End::Whole;
    }
    let rest = pieces.rest();
    let size = match rest {
        [low, high, _, _, ..] => 4 + usize::from(u16::from_le_bytes([*low, *high])),
        _ => rest.len(),
    };
    End::Stopped {
        stop,
        offset: pieces.offset(),
        record: rest.get(..size).unwrap_or(rest).to_vec(),
    }
}
