//! The saved forms of `tamezohishu` once more, by their layout, with a CRC-32 made another way, and what is to be said of bytes
//! that are no such form.

use tamezohishu::SavedError;

/// The heads of the two forms: mark and version.
pub const STATE: [u8; 4] = *b"TZS\x01";
pub const CONFIGURATION: [u8; 4] = *b"TZC\x01";

/// CRC-32 as it is defined: the bits of the bytes, the lowest of each first, as a polynomial that is divided by another; bit by
/// bit, highest power first, where the crate has a table and the lowest first.
pub fn crc32(bytes: &[u8]) -> u32 {
    let mut rest = u32::MAX;
    for byte in bytes {
        for bit in 0..8 {
            let next = u32::from((byte >> bit) & 1);
            let divides = rest >> 31 != next;
            rest = (rest << 1) ^ if divides { 0x04C1_1DB7 } else { 0 };
        }
    }
    !rest.reverse_bits()
}

/// Puts the check value that fits into the last four bytes.
pub fn seal(bytes: &mut [u8]) {
    let end = bytes.len() - 4;
    let check = crc32(&bytes[..end]);
    bytes[end..].copy_from_slice(&check.to_le_bytes());
}

fn fits(bytes: &[u8]) -> bool {
    let end = bytes.len() - 4;
    bytes[end..] == crc32(&bytes[..end]).to_le_bytes()
}

/// What is to be said of bytes where a form with this head and so many bytes is asked for.
pub fn form(bytes: &[u8], head: [u8; 4], size: usize) -> Result<(), SavedError> {
    let (found, of) = (bytes.len(), size);
    if found >= 4 {
        if bytes[..3] != head[..3] {
            return Err(SavedError::OtherForm);
        }
        if bytes[3] != head[3] && fits(bytes) {
            return Err(SavedError::OtherVersion(bytes[3]));
        }
    }
    if found < of {
        return Err(SavedError::Cut { bytes: found, of });
    }
    if found > of {
        return Err(SavedError::TooLong { bytes: found, of });
    }
    if fits(bytes) {
        Ok(())
    } else {
        Err(SavedError::Damaged)
    }
}

/// The same of a state, under a configuration whose saved form is given.
pub fn state(bytes: &[u8], size: usize, configuration: &[u8]) -> Result<(), SavedError> {
    form(bytes, STATE, size)?;
    if bytes[4..8] == configuration[configuration.len() - 4..] {
        Ok(())
    } else {
        Err(SavedError::OtherConfiguration)
    }
}

#[cfg(test)]
mod tests {
    use super::crc32;

    #[test]
    fn known_values() {
        assert_eq!(crc32(b"123456789"), 0xCBF4_3926);
        assert_eq!(crc32(b""), 0);
        assert_eq!(crc32(&[0; 32]), 0x190A_55AD);
    }
}
