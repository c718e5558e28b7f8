//! Recordings of events, and their replay.

use crate::configuration::Configuration;
use crate::ffi;
use crate::load::LoadError;
use crate::numbers::{Outcome, Stop};
use crate::sizes::REPLY_HEAD;
use crate::state::{Answer, Counters, State};
use std::{error, fmt};

/// A recording that is being written: a run of records, each with its body length and kind, two bytes each, little-endian.
#[derive(Clone, PartialEq, Eq, Debug, Default)]
pub struct Recording(Vec<u8>);

/// A packet of more than 65,535 bytes, which no record can hold.
#[derive(Clone, Copy, PartialEq, Eq, Debug)]
pub struct TooLong;

impl fmt::Display for TooLong {
    fn fmt(&self, f: &mut fmt::Formatter<'_>) -> fmt::Result {
        f.write_str("a record holds at most 65,535 bytes")
    }
}

impl error::Error for TooLong {}

impl Recording {
    /// An empty recording.
    pub fn new() -> Recording {
        Recording::default()
    }

    /// Adds a packet.
    pub fn packet(&mut self, packet: &[u8]) -> Result<(), TooLong> {
        let length = u16::try_from(packet.len()).map_err(|_| TooLong)?;
        self.record(length, 16, packet);
        Ok(())
    }

    /// Adds a tick.
    pub fn tick(&mut self) {
        self.record(0, 17, &[]);
    }

    /// Adds a fault.
    pub fn fault(&mut self, fault: u16) {
        self.record(2, 18, &fault.to_le_bytes());
    }

    fn record(&mut self, length: u16, kind: u16, body: &[u8]) {
        self.0.extend_from_slice(&length.to_le_bytes());
        self.0.extend_from_slice(&kind.to_le_bytes());
        self.0.extend_from_slice(body);
    }

    /// The recording's bytes.
    pub fn as_bytes(&self) -> &[u8] {
        &self.0
    }
}

/// What a piece of a recording came to. The bytes written are lent out of the caller's output.
#[derive(Clone, Copy, PartialEq, Eq, Debug)]
pub struct Piece<'a> {
    pub stop: Stop,
    /// Bytes of the recording that were read; a bad record begins there.
    pub read: usize,
    /// Events that were answered.
    pub count: usize,
    /// The replies, as bytes.
    pub written: &'a [u8],
}

/// What a recording under an image came to.
#[derive(Clone, Copy, PartialEq, Eq, Debug)]
pub struct Replay<'a> {
    pub stop: Stop,
    /// Bytes of the recording that were read; a bad record begins there.
    pub read: usize,
    /// Events that were answered.
    pub count: usize,
    /// The replies, as bytes.
    pub written: &'a [u8],
    /// The counters behind the last answer.
    pub counters: Counters,
}

impl<'a> Piece<'a> {
    /// The replies, one an event.
    pub fn replies(&self) -> Replies<'a> {
        Replies(self.written)
    }
}

impl<'a> Replay<'a> {
    /// The replies, one an event.
    pub fn replies(&self) -> Replies<'a> {
        Replies(self.written)
    }
}

/// The reply to one event.
#[derive(Clone, Copy, PartialEq, Eq, Debug)]
pub struct Reply<'a> {
    pub answer: Answer,
    /// The command dispatched: source, command id (big-endian, two bytes each), argument count (one byte), arguments. Empty
    /// for any outcome but [`Outcome::Dispatched`].
    pub command: &'a [u8],
}

/// The replies that stand in an output. It ends where they end, or before one that is cut.
#[derive(Clone, Debug)]
pub struct Replies<'a>(&'a [u8]);

impl<'a> Iterator for Replies<'a> {
    type Item = Reply<'a>;

    fn next(&mut self) -> Option<Reply<'a>> {
        let (numbers, rest) = self.0.split_first_chunk::<REPLY_HEAD>()?;
        let [answer, id0, id1, destination, written0, written1] = *numbers;
        let written = u16::from_le_bytes([written0, written1]);
        let command = rest.get(..usize::from(written))?;
        self.0 = &rest[command.len()..];
        Some(Reply {
            answer: Answer {
                outcome: Outcome::from(answer),
                id: u16::from_le_bytes([id0, id1]),
                destination,
                written,
            },
            command,
        })
    }
}

/// The written part of an output; the library is proved to write inside it.
fn part(out: &[u8], wrote: usize) -> &[u8] {
    out.get(..wrote).unwrap_or(out)
}

impl State {
    /// Runs a piece of a recording. [`crate::REPLY_ROOM`] bytes of output for each event are always enough. With less it
    /// stops before the first event that has no room ([`Stop::OutputFull`]); the state is then as the last answer left it, and
    /// the rest of the recording, from `read` on, can be handed in with new room. The state is judged once for the piece, where
    /// single steps judge it for each event.
    pub fn resume<'a>(
        &mut self,
        configuration: &Configuration,
        recording: &[u8],
        out: &'a mut [u8],
    ) -> Piece<'a> {
        let (input, length) = (recording.as_ptr(), recording.len());
        let (output, room) = (out.as_mut_ptr(), out.len());
        // SAFETY: recording and output are not null and have so many bytes; nothing else has `out`, so it overlaps nothing.
        let piece =
            unsafe { ffi::resume(&configuration.0, &mut self.0, input, length, output, room) };
        Piece {
            stop: Stop::from(piece.stop),
            read: piece.read,
            count: piece.count,
            written: part(out, piece.wrote),
        }
    }
}

/// Runs a recording under an image, from its start state; room and stops as in [`State::resume`].
pub fn replay<'a>(
    image: &[u8],
    recording: &[u8],
    out: &'a mut [u8],
) -> Result<Replay<'a>, LoadError> {
    // SAFETY: the pointers are not null and have so many bytes; nothing else has `out`, so they do not overlap it.
    let replayed = unsafe {
        ffi::tz_replay(
            image.as_ptr(),
            image.len(),
            recording.as_ptr(),
            recording.len(),
            out.as_mut_ptr(),
            out.len(),
        )
    };
    match replayed.load {
        0 => Ok(Replay {
            stop: Stop::from(replayed.stop),
            read: replayed.read,
            count: replayed.count,
            written: part(out, replayed.wrote),
            counters: Counters::from(replayed.counts),
        }),
        refusal => Err(LoadError::new(refusal, replayed.offset)),
    }
}
