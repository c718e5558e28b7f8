//! Numbers and bytes as people write them, in an option, in a line or in a cell of a spreadsheet, and bytes as they are shown.
//! Nothing is guessed: what is not written as it should be is told, with what was expected.

use std::fmt::{self, Display};

const A_NUMBER: &str = "expected a number from 0 to 65,535, in decimal or in hex after 0x";
const A_BYTE: &str = "expected a number from 0 to 255, in decimal or in hex after 0x";
const BYTES: &str = "expected two hex digits a byte, with or without spaces between bytes";

/// The most characters of a text that a message shows.
const SHOWN: usize = 40;

/// A number of two bytes, in decimal or in hex after 0x.
pub fn number(text: &str) -> Result<u16, String> {
    within(text, A_NUMBER)
}

/// A number of one byte, in decimal or in hex after 0x.
pub fn byte(text: &str) -> Result<u8, String> {
    within(text, A_BYTE)
}

fn within<T: TryFrom<u16>>(text: &str, expected: &str) -> Result<T, String> {
    if text.is_empty() {
        return Err(format!("empty: {expected}"));
    }
    let after_0x = text.strip_prefix("0x").or(text.strip_prefix("0X"));
    let (digits, base) = match after_0x {
        Some(digits) => (digits, 16),
        None => (text, 10),
    };
    if digits.is_empty() || !digits.chars().all(|c| c.is_digit(base)) {
        return Err(format!("{} is no number: {expected}", shown(text)));
    }
    // These are digits and nothing else, so that only their size can be amiss.
    let number = u16::from_str_radix(digits, base).ok();
    number
        .and_then(|number| T::try_from(number).ok())
        .ok_or_else(|| format!("{} is too large: {expected}", shown(text)))
}

/// Bytes in hex. Spaces may stand between bytes and never between the two digits of one: `1 8` could be meant for 18 as well
/// as for 01 08.
pub fn bytes(text: &str) -> Result<Vec<u8>, String> {
    let mut bytes = Vec::with_capacity(text.len() / 2);
    match append_bytes(text, &mut bytes) {
        Ok(()) => Ok(bytes),
        Err(NoBytes::Other { character, .. }) => {
            Err(format!("{} has {character:?} in it: {BYTES}", shown(text)))
        }
        Err(NoBytes::Odd { digits, .. }) => {
            let place = if digits == text.trim() {
                String::new()
            } else {
                format!(" in {}", shown(digits))
            };
            let text = shown(text);
            Err(format!(
                "{text} has an odd number of digits{place}: {BYTES}"
            ))
        }
    }
}

/// Why a text is no bytes, and at which of its characters, counted from 1.
#[derive(PartialEq, Eq, Debug)]
pub enum NoBytes<'a> {
    /// A character that is neither a hex digit nor a space.
    Other { column: usize, character: char },
    /// Digits that stand together and are no whole bytes.
    Odd { column: usize, digits: &'a str },
}

impl NoBytes<'_> {
    pub fn column(&self) -> usize {
        match *self {
            NoBytes::Other { column, .. } | NoBytes::Odd { column, .. } => column,
        }
    }
}

impl Display for NoBytes<'_> {
    fn fmt(&self, f: &mut fmt::Formatter<'_>) -> fmt::Result {
        match self {
            NoBytes::Other { character, .. } => {
                write!(f, "{character:?} is no hex digit: {BYTES}")
            }
            NoBytes::Odd { digits, .. } => {
                let digits = shown(digits);
                write!(f, "{digits} has an odd number of digits: {BYTES}")
            }
        }
    }
}

/// Appends the bytes that a text says. Where it is no bytes, what was appended is of no use.
pub fn append_bytes<'a>(text: &'a str, bytes: &mut Vec<u8>) -> Result<(), NoBytes<'a>> {
    let other = |c: &char| *c != ' ' && !c.is_ascii_hexdigit();
    if let Some((column, character)) = (1..).zip(text.chars()).find(|(_, c)| other(c)) {
        return Err(NoBytes::Other { column, character });
    }
    // Each character is one byte of the text from here on.
    let mut column = 1;
    for digits in text.split(' ') {
        let pairs = digits.as_bytes().chunks_exact(2);
        if !pairs.remainder().is_empty() {
            return Err(NoBytes::Odd { column, digits });
        }
        bytes.extend(pairs.map(|pair| 16 * digit(pair[0]) + digit(pair[1])));
        column += digits.len() + 1;
    }
    Ok(())
}

/// What a hex digit stands for.
fn digit(character: u8) -> u8 {
    match character {
        b'0'..=b'9' => character - b'0',
        _ => (character | 0x20) - b'a' + 10,
    }
}

/// What a text says; or nothing, and its place and what is amiss with it are appended to `wrong`.
pub fn good<T>(said: Result<T, String>, place: &dyn Display, wrong: &mut Vec<String>) -> Option<T> {
    said.map_err(|told| wrong.push(format!("{place}: {told}")))
        .ok()
}

/// Appends a space and two hex digits for each byte.
pub fn append_spaced(bytes: &[u8], line: &mut String) {
    const DIGITS: &[u8; 16] = b"0123456789ABCDEF";
    for byte in bytes {
        line.push(' ');
        line.push(char::from(DIGITS[usize::from(byte >> 4)]));
        line.push(char::from(DIGITS[usize::from(byte & 15)]));
    }
}

/// A text in quotes for a message: no control character reaches the terminal, and a long text is cut.
pub fn shown(text: &str) -> String {
    let start: String = text.chars().take(SHOWN).collect();
    let cut = if start.len() < text.len() { ".." } else { "" };
    format!("{start:?}{cut}")
}

/// A number of things, as `no pads`, `1 pad`, `2 pads`.
pub fn counted(number: usize, what: &str) -> String {
    match number {
        0 => format!("no {what}s"),
        1 => format!("1 {what}"),
        _ => format!("{number} {what}s"),
    }
}

#[cfg(test)]
mod tests {
    use super::*;

    #[test]
    fn numbers_in_decimal_and_in_hex() {
        for (text, expected) in [
            ("0", 0),
            ("007", 7),
            ("65535", 65_535),
            ("00000000065535", 65_535),
            ("0x0", 0),
            ("0xFFff", 65_535),
            ("0X1f", 31),
        ] {
            assert_eq!(number(text), Ok(expected), "{text}");
        }
    }

    #[test]
    fn what_is_no_number_is_told() {
        for text in [
            "x", "1.0", "1,000", "-1", "+1", "0x", "0x+1", "0xG", "1F", "1 2", "1e3", "٣",
        ] {
            let told = format!("{text:?} is no number: {A_NUMBER}");
            assert_eq!(number(text), Err(told));
        }
        for text in ["65536", "0x10000", "99999999999999999999999999"] {
            let told = format!("{text:?} is too large: {A_NUMBER}");
            assert_eq!(number(text), Err(told));
        }
        assert_eq!(number(""), Err(format!("empty: {A_NUMBER}")));
    }

    #[test]
    fn a_byte_is_a_number_up_to_255() {
        assert_eq!(byte("255"), Ok(255));
        assert_eq!(byte("0x1F"), Ok(31));
        for text in ["256", "0x100", "65536"] {
            let told = format!("{text:?} is too large: {A_BYTE}");
            assert_eq!(byte(text), Err(told));
        }
        assert_eq!(byte("x"), Err(format!("\"x\" is no number: {A_BYTE}")));
        assert_eq!(byte(""), Err(format!("empty: {A_BYTE}")));
    }

    #[test]
    fn every_byte_goes_both_ways() {
        let all: Vec<u8> = (0..=255).collect();
        let mut line = String::new();
        append_spaced(&all, &mut line);
        assert!(line.starts_with(" 00 01 02") && line.ends_with(" FD FE FF"));
        assert_eq!(bytes(&line), Ok(all.clone()));
        assert_eq!(bytes(&line.replace(' ', "")), Ok(all.clone()));
        assert_eq!(bytes(&line.to_lowercase()), Ok(all));
        assert_eq!(bytes(""), Ok(vec![]));
        assert_eq!(bytes("0A0b  0C"), Ok(vec![10, 11, 12]));
    }

    #[test]
    fn what_is_no_hex_is_told() {
        for (text, told) in [
            ("0G", "\"0G\" has 'G' in it"),
            ("0x02", "\"0x02\" has 'x' in it"),
            ("02\t03", "\"02\\t03\" has '\\t' in it"),
            ("02,03", "\"02,03\" has ',' in it"),
            ("2", "\"2\" has an odd number of digits"),
            ("020", "\"020\" has an odd number of digits"),
            ("02 3 4", "\"02 3 4\" has an odd number of digits in \"3\""),
        ] {
            assert_eq!(bytes(text), Err(format!("{told}: {BYTES}")));
        }
    }

    #[test]
    fn what_is_no_hex_has_its_place() {
        let told = |text| {
            append_bytes(text, &mut Vec::new())
                .map_err(|told| (told.column(), told.to_string()))
                .expect_err("it is no hex")
        };
        let other = |column, c| (column, format!("{c:?} is no hex digit: {BYTES}"));
        assert_eq!(told("G"), other(1, 'G'));
        assert_eq!(told("1 é0"), other(3, 'é'));
        assert_eq!(told("02\t03"), other(3, '\t'));
        let odd = |column, digits| {
            let told = format!("{digits:?} has an odd number of digits: {BYTES}");
            (column, told)
        };
        assert_eq!(told("020"), odd(1, "020"));
        assert_eq!(told("  02  3 4"), odd(7, "3"));
    }

    #[test]
    fn a_text_is_shown_on_one_line() {
        assert_eq!(shown("a\u{1b}[2J\nb\""), r#""a\u{1b}[2J\nb\"""#);
        assert_eq!(shown(&"é".repeat(40)), format!("\"{}\"", "é".repeat(40)));
        assert_eq!(shown(&"é".repeat(41)), format!("\"{}\"..", "é".repeat(40)));
    }
}
