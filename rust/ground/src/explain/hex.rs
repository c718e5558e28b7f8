//! Bytes as lines and cells show them.

use std::fmt;

/// The most bytes that a line shows of what may be long.
const SHOWN: usize = 16;

/// Every byte, in two hex digits, with a space between bytes.
pub struct Hex<'a>(pub &'a [u8]);

impl fmt::Display for Hex<'_> {
    fn fmt(&self, f: &mut fmt::Formatter<'_>) -> fmt::Result {
        const DIGITS: &[u8; 16] = b"0123456789ABCDEF";
        let digits = |byte: u8| {
            let digit = |four: u8| char::from(DIGITS[usize::from(four)]);
            [digit(byte >> 4), digit(byte & 15)]
        };
        for (place, byte) in self.0.iter().enumerate() {
            let [high, low] = digits(*byte);
            if place > 0 {
                fmt::Write::write_char(f, ' ')?;
            }
            fmt::Write::write_char(f, high)?;
            fmt::Write::write_char(f, low)?;
        }
        Ok(())
    }
}

/// The first bytes, and two dots where there are more.
pub struct Start<'a>(pub &'a [u8]);

impl fmt::Display for Start<'_> {
    fn fmt(&self, f: &mut fmt::Formatter<'_>) -> fmt::Result {
        match self.0.get(..SHOWN) {
            Some(start) if start.len() < self.0.len() => write!(f, "{} ..", Hex(start)),
            _ => Hex(self.0).fmt(f),
        }
    }
}

#[cfg(test)]
mod tests {
    use super::*;

    #[test]
    fn bytes_are_shown_whole_or_by_their_start() {
        assert_eq!(Hex(&[]).to_string(), "");
        assert_eq!(Hex(&[0x00, 0xA5, 0xFF]).to_string(), "00 A5 FF");
        let many: Vec<u8> = (0..17).collect();
        let start = "00 01 02 03 04 05 06 07 08 09 0A 0B 0C 0D 0E 0F";
        assert_eq!(Hex(&many).to_string(), format!("{start} 10"));
        assert_eq!(Start(&many).to_string(), format!("{start} .."));
        assert_eq!(Start(&many[..16]).to_string(), start);
        assert_eq!(Start(&[]).to_string(), "");
    }
}
