//! Loading: an image becomes a configuration and the state it starts in.

use crate::configuration::Configuration;
use crate::ffi;
use crate::numbers::LoadRefusal;
use crate::state::State;
use std::{error, fmt};

/// An image that was refused.
#[derive(Clone, Copy, PartialEq, Eq, Debug)]
pub struct LoadError {
    pub refusal: LoadRefusal,
    /// Where the first bad record begins.
    pub offset: usize,
}

impl fmt::Display for LoadError {
    fn fmt(&self, f: &mut fmt::Formatter<'_>) -> fmt::Result {
        let LoadError { refusal, offset } = self;
        write!(f, "record at byte {offset}: {refusal}")
    }
}

impl error::Error for LoadError {}

impl LoadError {
    /// By the numbers that the library answers with.
    pub(crate) fn new(refusal: u8, offset: usize) -> LoadError {
        LoadError {
            refusal: LoadRefusal::from(refusal),
            offset,
        }
    }
}

impl Configuration {
    /// Reads a configuration image: the configuration and the state it starts in, or the refusal of its first bad record.
    pub fn load(image: &[u8]) -> Result<(Configuration, State), LoadError> {
        // SAFETY: the pointer is not null and has `len` bytes that nothing writes to meanwhile.
        let loaded = unsafe { ffi::tz_load(image.as_ptr(), image.len()) };
        match loaded.answer {
            0 => Ok((Configuration(loaded.config), State(loaded.run))),
            refusal => Err(LoadError::new(refusal, loaded.offset)),
        }
    }
}
