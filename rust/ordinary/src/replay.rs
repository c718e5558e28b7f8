//! Replay: an image and a recording in, the answers out, in the layout of the C header.

use crate::answer::{REPLY_HEAD, ROOM};
use crate::config::{Config, Run};
use crate::load::{load, LoadError};
use crate::record;
use crate::rules::keeps_rules;
use crate::step::inner;

#[derive(Clone, Copy, Debug, PartialEq, Eq)]
#[repr(u8)]
pub enum Stop {
    End = 0,
    BadState = 20,
    Cut = 60,
    OtherKind = 61,
    WrongLength = 62,
    OutputFull = 63,
}

/// How far a piece of a recording came.
#[derive(Clone, Copy, Debug, PartialEq, Eq)]
pub struct Piece {
    pub stop: Stop,
    pub read: usize,
    pub count: usize,
    pub wrote: usize,
}

#[derive(Clone, Copy, Debug, PartialEq, Eq)]
pub struct Replayed {
    pub piece: Piece,
    /// In the order A, R, D, P, U, I, F.
    pub counters: [u16; 7],
}

/// A recording under an image.
pub fn replay(image: &[u8], recording: &[u8], out: &mut [u8]) -> Result<Replayed, LoadError> {
    let (config, mut run) = load(image)?;
    let piece = walk(&config, &mut run, recording, out);
    Ok(Replayed {
        piece,
        counters: run.counters(),
    })
}

/// A piece of a recording, on any state.
pub fn resume(config: &Config, run: &mut Run, recording: &[u8], out: &mut [u8]) -> Piece {
    if !keeps_rules(config, run) {
        return Piece {
            stop: Stop::BadState,
            read: 0,
            count: 0,
            wrote: 0,
        };
    }
    walk(config, run, recording, out)
}

fn walk(config: &Config, run: &mut Run, recording: &[u8], out: &mut [u8]) -> Piece {
    let mut piece = Piece {
        stop: Stop::End,
        read: 0,
        count: 0,
        wrote: 0,
    };
    while piece.read < recording.len() {
        let Some(record) = record::first(&recording[piece.read..]) else {
            piece.stop = Stop::Cut;
            break;
        };
        match (record.kind, record.body.len()) {
            (16, _) | (17, 0) | (18, 2) => {}
            (17 | 18, _) => {
                piece.stop = Stop::WrongLength;
                break;
            }
            _ => {
                piece.stop = Stop::OtherKind;
                break;
            }
        }
        let room = out[piece.wrote..].split_first_chunk_mut::<REPLY_HEAD>();
        let Some((numbers, Some(command))) =
            room.map(|(numbers, rest)| (numbers, rest.first_chunk_mut::<ROOM>()))
        else {
            piece.stop = Stop::OutputFull;
            break;
        };
        let answer = match (record.kind, record.body) {
            (16, packet) => inner::packet(config, run, packet, command),
            (18, &[low, high]) => {
                inner::fault(config, run, u16::from_le_bytes([low, high]), command)
            }
            _ => inner::tick(run),
        };
        *numbers = answer.head();
        piece.read += record.size;
        piece.count += 1;
        piece.wrote += REPLY_HEAD + usize::from(answer.written);
    }
    piece
}
