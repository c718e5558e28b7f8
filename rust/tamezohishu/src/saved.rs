//! What is the same in both saved forms: a head before the fields, a check value behind them, and why a form is refused.

use crate::check::crc32;
use std::cmp::Ordering;
use std::{error, fmt};

/// The version of both forms. It moves with every change of either; head and check value stay where they are.
const VERSION: u8 = 1;
/// The bytes of the head: the mark and the version.
pub const HEAD: usize = 4;
/// The bytes of a check value.
pub const CHECK: usize = 4;

/// Why bytes are not taken for a saved state or a saved configuration.
#[derive(Clone, Copy, PartialEq, Eq, Hash, Debug)]
pub enum SavedError {
    /// They do not begin as such a form does: a state where a configuration was asked for or the other way round, the bytes of
    /// a state before there was a head, or anything else.
    OtherForm,
    /// A form of another version, whole and undamaged.
    OtherVersion(u8),
    /// Fewer bytes than the form has.
    Cut { bytes: usize, of: usize },
    /// More bytes than the form has.
    TooLong { bytes: usize, of: usize },
    /// The check value does not fit the bytes.
    Damaged,
    /// A state that was saved with another configuration than the one it was to be taken back with.
    OtherConfiguration,
}

impl fmt::Display for SavedError {
    fn fmt(&self, f: &mut fmt::Formatter<'_>) -> fmt::Result {
        match self {
            SavedError::OtherForm => f.write_str("not this saved form: it begins otherwise"),
            SavedError::OtherVersion(version) => write!(
                f,
                "saved form of version {version}, this crate takes version {VERSION}"
            ),
            SavedError::Cut { bytes, of } => write!(f, "saved form cut: {bytes} bytes of {of}"),
            SavedError::TooLong { bytes, of } => {
                write!(f, "saved form too long: {bytes} bytes for {of}")
            }
            SavedError::Damaged => f.write_str("saved form damaged: its check value does not fit"),
            SavedError::OtherConfiguration => f.write_str("saved state of another configuration"),
        }
    }
}

impl error::Error for SavedError {}

/// One of the two forms.
pub struct Form {
    /// What it begins with.
    pub mark: [u8; HEAD - 1],
    /// How many bytes it has, all in all.
    pub bytes: usize,
}

impl Form {
    /// Puts the head before what stands in `bytes`, and the check value behind it.
    pub fn seal(&self, bytes: &mut [u8]) {
        let [a, b, c] = self.mark;
        if let Some(head) = bytes.first_chunk_mut() {
            *head = [a, b, c, VERSION];
        }
        if let Some((before, check)) = bytes.split_last_chunk_mut() {
            *check = crc32(before).to_le_bytes();
        }
    }

    /// What stands between head and check value, or why these bytes are no such form. A version is told only where the check
    /// value fits, so that damage to it is told as damage.
    pub fn open<'a>(&self, bytes: &'a [u8]) -> Result<&'a [u8], SavedError> {
        let (found, of) = (bytes.len(), self.bytes);
        let cut = SavedError::Cut { bytes: found, of };
        let (head, behind) = bytes.split_first_chunk::<HEAD>().ok_or(cut)?;
        let [a, b, c, version] = *head;
        if [a, b, c] != self.mark {
            return Err(SavedError::OtherForm);
        }
        if version != VERSION && is_sealed(bytes) {
            return Err(SavedError::OtherVersion(version));
        }
        match found.cmp(&of) {
            Ordering::Less => return Err(cut),
            Ordering::Greater => return Err(SavedError::TooLong { bytes: found, of }),
            Ordering::Equal => {}
        }
        if !is_sealed(bytes) {
            return Err(SavedError::Damaged);
        }
        let (between, _) = behind.split_last_chunk::<CHECK>().ok_or(cut)?;
        Ok(between)
    }
}

/// Whether the last four bytes are the check value of all before them.
fn is_sealed(bytes: &[u8]) -> bool {
    let parts = bytes.split_last_chunk::<CHECK>();
    parts.is_some_and(|(before, check)| crc32(before).to_le_bytes() == *check)
}
