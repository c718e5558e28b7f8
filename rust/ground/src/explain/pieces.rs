//! A recording as it comes in: no more of it is held than a piece and a record.

use std::io::{self, ErrorKind, Read};

/// The most bytes that are asked for at once.
pub const PIECE: usize = 64 << 10;
/// The longest record: its length and kind, and a body whose length two bytes can say.
pub const LONGEST_RECORD: usize = 4 + 65_535;

pub struct Pieces<R> {
    input: R,
    /// It has its size from the start and never grows.
    held: Vec<u8>,
    /// Where in `held` the bytes stand that were not passed yet.
    start: usize,
    end: usize,
    /// How many bytes of the recording were passed.
    offset: u64,
}

impl<R: Read> Pieces<R> {
    pub fn new(input: R) -> Pieces<R> {
        Pieces {
            input,
            held: vec![0; PIECE + LONGEST_RECORD],
            start: 0,
            end: 0,
            offset: 0,
        }
    }

    /// The bytes that are there and were not passed yet.
    pub fn rest(&self) -> &[u8] {
        &self.held[self.start..self.end]
    }

    /// Where in the recording the rest begins.
    pub fn offset(&self) -> u64 {
        self.offset
    }

    /// How many bytes of the recording were read so far.
    pub fn read(&self) -> u64 {
        self.offset + self.rest().len() as u64
    }

    /// Goes on behind so many bytes of the rest.
    pub fn pass(&mut self, bytes: usize) {
        let bytes = bytes.min(self.end - self.start);
        self.start += bytes;
        self.offset += bytes as u64;
    }

    /// Reads more behind the rest; whether there was more. The rest has to be less than a record, so that there is room.
    pub fn more(&mut self) -> io::Result<bool> {
        if self.start > 0 {
            self.held.copy_within(self.start..self.end, 0);
            self.end -= self.start;
            self.start = 0;
        }
        let most = self.held.len().min(self.end + PIECE);
        loop {
            match self.input.read(&mut self.held[self.end..most]) {
                Ok(bytes) => {
                    self.end = most.min(self.end + bytes);
                    return Ok(bytes > 0);
                }
                Err(told) if told.kind() == ErrorKind::Interrupted => {}
                Err(told) => return Err(told),
            }
        }
    }
}

#[cfg(test)]
mod tests {
    use super::*;

    #[test]
    fn bytes_are_held_until_they_are_passed() {
        let mut pieces = Pieces::new(&b"abcdefgh"[..]);
        assert_eq!((pieces.rest(), pieces.read()), (&b""[..], 0));
        assert!(pieces.more().expect("it is read"));
        assert_eq!((pieces.rest(), pieces.read()), (&b"abcdefgh"[..], 8));
        pieces.pass(3);
        assert_eq!((pieces.rest(), pieces.offset()), (&b"defgh"[..], 3));
        assert!(!pieces.more().expect("it is read"));
        assert_eq!((pieces.rest(), pieces.offset()), (&b"defgh"[..], 3));
        pieces.pass(100);
        assert_eq!((pieces.rest(), pieces.read()), (&b""[..], 8));
    }

    /// Gives one byte at a call, an interruption before each, and then fails.
    struct Slow(u8, bool);

    impl Read for Slow {
        fn read(&mut self, room: &mut [u8]) -> io::Result<usize> {
            self.1 = !self.1;
            if self.1 {
                return Err(ErrorKind::Interrupted.into());
            }
            if self.0 == 3 {
                return Err(ErrorKind::PermissionDenied.into());
            }
            room[0] = self.0;
            self.0 += 1;
            Ok(1)
        }
    }

    #[test]
    fn an_interruption_is_no_failure() {
        let mut pieces = Pieces::new(Slow(0, false));
        while pieces.more().is_ok() {}
        assert_eq!(pieces.rest(), [0, 1, 2]);
        let told = pieces.more().map_err(|told| told.kind());
        assert_eq!(told, Err(ErrorKind::PermissionDenied));
    }

    #[test]
    fn it_never_grows() {
        // The longest rest that can be asked for more, a byte less than the longest record, and a full piece behind it.
        let mut pieces = Pieces::new(io::repeat(7));
        assert!(pieces.more().expect("it is read"));
        assert!(pieces.more().expect("it is read"));
        pieces.pass(2 * PIECE - (LONGEST_RECORD - 1));
        assert!(pieces.more().expect("it is read"));
        assert_eq!(pieces.rest().len(), LONGEST_RECORD - 1 + PIECE);
        assert_eq!(pieces.held.len(), PIECE + LONGEST_RECORD);
        // With no room left there is an end to it, too.
        while pieces.more().expect("it is read") {}
        assert_eq!(pieces.held.len(), PIECE + LONGEST_RECORD);
    }
}
