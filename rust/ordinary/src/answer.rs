//! What judge, steps and replay answer, and the output room that they ask for.

/// Output room that a step asks for.
pub const ROOM: usize = 260;
/// The numbers of an answer as they stand in the output of a replay, in bytes.
pub const REPLY_HEAD: usize = 6;
/// Output room that an event of a replay asks for: the numbers of its answer and a step's room.
pub const REPLY_ROOM: usize = REPLY_HEAD + ROOM;

/// What a step answers.
#[derive(Clone, Copy, Debug, PartialEq, Eq)]
#[repr(u8)]
pub enum Outcome {
    Dispatched = 10,
    Armed = 11,
    Done = 12,
    Quiet = 13,
    Tick = 14,
    Unarmed = 15,
    BadState = 20,
    NoRoom = 21,
    Short = 22,
    BadSize = 23,
    BadVersion = 24,
    BadType = 25,
    NoSecondary = 26,
    BadXor = 27,
    ShortData = 28,
    TooLong = 29,
    Protected = 30,
    BadCount = 31,
    NoFault = 32,
    Unknown = 33,
    UnknownFault = 34,
}

/// The four numbers of an answer.
#[derive(Clone, Copy, Debug, PartialEq, Eq)]
pub struct Answer {
    pub outcome: Outcome,
    pub id: u16,
    pub dest: u8,
    pub written: u16,
}

impl Answer {
    #[inline]
    pub(crate) const fn bare(outcome: Outcome) -> Answer {
        Answer::of(outcome, 0)
    }

    #[inline]
    pub(crate) const fn of(outcome: Outcome, id: u16) -> Answer {
        Answer {
            outcome,
            id,
            dest: 0,
            written: 0,
        }
    }

    #[inline]
    pub(crate) const fn dispatched(id: u16, dest: u8, written: u16) -> Answer {
        Answer {
            outcome: Outcome::Dispatched,
            id,
            dest,
            written,
        }
    }

    /// The four numbers as a reply begins with them, little-endian.
    #[inline]
    pub(crate) fn head(&self) -> [u8; REPLY_HEAD] {
        let [id0, id1] = self.id.to_le_bytes();
        let [written0, written1] = self.written.to_le_bytes();
        let answer = self.outcome as u8;
        [answer, id0, id1, self.dest, written0, written1]
    }
}
