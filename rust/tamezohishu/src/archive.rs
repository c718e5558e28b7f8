//! Whether the archive that was linked is the one that this crate was written for.

use crate::ffi;
use std::cmp::Ordering;
use std::{error, fmt};

/// An archive with other structs or signatures than this crate has. A call of it would read and write the wrong places.
#[derive(Clone, Copy, PartialEq, Eq, Debug)]
pub struct Mismatch {
    /// The number of this crate.
    pub expected: u32,
    /// The number of the archive.
    pub archive: u32,
}

impl fmt::Display for Mismatch {
    fn fmt(&self, f: &mut fmt::Formatter<'_>) -> fmt::Result {
        let Mismatch { expected, archive } = self;
        write!(
            f,
            "this crate is for boundary number {expected}, the archive has {archive}: "
        )?;
        f.write_str(match expected.cmp(archive) {
            Ordering::Less => "the archive is newer",
            Ordering::Greater => "the crate is newer",
            Ordering::Equal => "they go together",
        })
    }
}

impl error::Error for Mismatch {}

/// Whether crate and archive go together. A program asks this first, before any other call.
pub fn check_archive() -> Result<(), Mismatch> {
    // SAFETY: it takes nothing and returns a number, in every archive that has it; an older one does not link.
    compare(ffi::ABI, unsafe { ffi::tz_abi() })
}

fn compare(expected: u32, archive: u32) -> Result<(), Mismatch> {
    if expected == archive {
        Ok(())
    } else {
        Err(Mismatch { expected, archive })
    }
}

#[cfg(test)]
mod tests {
    use super::*;

    #[test]
    fn this_archive_goes_with_this_crate() {
        assert_eq!(check_archive(), Ok(()));
    }

    #[test]
    fn which_is_newer() {
        let told = |expected, archive| compare(expected, archive).map_err(|told| told.to_string());
        assert_eq!(told(7, 7), Ok(()));
        let newer = "this crate is for boundary number 7, the archive has 8: the archive is newer";
        assert_eq!(told(7, 8), Err(newer.to_string()));
        let older = "this crate is for boundary number 7, the archive has 6: the crate is newer";
        assert_eq!(told(7, 6), Err(older.to_string()));
        assert!(told(0, u32::MAX).is_err_and(|told| told.ends_with("the archive is newer")));
    }
}
