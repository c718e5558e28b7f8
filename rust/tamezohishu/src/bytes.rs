//! A state and a configuration as bytes, to keep them between two runs of a program.
//!
//! Both forms begin with a mark of three bytes and a version, 1, and end with a check value: the CRC-32 ([`crate::check`]) of
//! all bytes before it. Between them the fields stand table by table, each count before its table, with nothing between them.
//! Numbers are little-endian; check values take four bytes, the three table counts eight bytes each. This order is the forms'
//! own: the structs of the C header may move, it does not.
//!
//! State, 61 bytes:
//!
//! | byte | |
//! |---|---|
//! | 0 | `54 5A 53`, "TZS" |
//! | 3 | version, 1 |
//! | 4 | check value of its configuration: the last four bytes of that one's saved form |
//! | 8 | armed (1), ticks (2), the counters A, R, D, P, U, I, F (2 each), the states of the 32 fault rows (1 each): 49 bytes |
//! | 57 | check value of bytes 0 to 56 |
//!
//! Configuration, 1,190 bytes:
//!
//! | byte | |
//! |---|---|
//! | 0 | `54 5A 43`, "TZC" |
//! | 3 | version, 1 |
//! | 4 | ground source, fault source, own base (2 each) |
//! | 10 | count of routes (8), 128 route ids (2 each), 128 destinations (1 each) |
//! | 402 | count of protected ids (8), 32 protected ids (2 each) |
//! | 474 | count of fault rows (8), 32 fault ids (2 each), 32 response ids (2 each) |
//! | 610 | 32 latching bytes, 32 argument counts, 32 times 16 argument bytes |
//! | 1,186 | check value of bytes 0 to 1,185 |
//!
//! A check value finds every change of up to 32 bits in a row, and of other damage all but about one in 2^32. It is no
//! signature: who means to can make a form that fits. What a form says is not judged here. A state or a configuration that
//! breaks a rule and was saved so is taken back so, and the next step says it (answer 20).

use crate::configuration::Configuration;
use crate::ffi;
use crate::saved::{Form, SavedError, CHECK, HEAD};
use crate::sizes::{PROTECTED_IDS, ROUTES, ROWS, ROW_ARGUMENTS};
use crate::state::State;

/// How many bytes a state is saved to.
pub const STATE_BYTES: usize = 61;
/// How many bytes a configuration is saved to.
pub const CONFIGURATION_BYTES: usize = 1190;

const STATE: Form = Form {
    mark: *b"TZS",
    bytes: STATE_BYTES,
};

const CONFIGURATION: Form = Form {
    mark: *b"TZC",
    bytes: CONFIGURATION_BYTES,
};

/// The fields of both, in order, each handed to `v`. One list serves writing and reading.
trait Fields {
    fn each<V: Visit>(&mut self, v: &mut V);
}

/// What is done with a field.
trait Visit {
    fn byte(&mut self, field: &mut u8);

    fn two(&mut self, field: &mut u16) {
        let mut bytes = field.to_le_bytes();
        bytes.iter_mut().for_each(|byte| self.byte(byte));
        *field = u16::from_le_bytes(bytes);
    }

    fn count(&mut self, field: &mut usize) {
        let mut bytes = (*field as u64).to_le_bytes();
        bytes.iter_mut().for_each(|byte| self.byte(byte));
        *field = u64::from_le_bytes(bytes) as usize;
    }

    fn bytes(&mut self, fields: &mut [u8]) {
        fields.iter_mut().for_each(|field| self.byte(field));
    }

    fn twos(&mut self, fields: &mut [u16]) {
        fields.iter_mut().for_each(|field| self.two(field));
    }
}

/// Writes each byte to the next place.
struct Save<'a>(std::slice::IterMut<'a, u8>);

impl Visit for Save<'_> {
    fn byte(&mut self, field: &mut u8) {
        if let Some(place) = self.0.next() {
            *place = *field;
        }
    }
}

/// Reads each byte from the next place.
struct Restore<'a>(std::slice::Iter<'a, u8>);

impl Visit for Restore<'_> {
    fn byte(&mut self, field: &mut u8) {
        if let Some(place) = self.0.next() {
            *field = *place;
        }
    }
}

impl Fields for ffi::Run {
    fn each<V: Visit>(&mut self, v: &mut V) {
        let standing = &mut self.standing;
        v.byte(&mut standing.armed);
        v.two(&mut standing.ticks);
        let counts = &mut standing.counts;
        v.two(&mut counts.a);
        v.two(&mut counts.r);
        v.two(&mut counts.d);
        v.two(&mut counts.p);
        v.two(&mut counts.u);
        v.two(&mut counts.i);
        v.two(&mut counts.f);
        v.bytes(&mut self.states);
    }
}

impl Fields for ffi::Config {
    fn each<V: Visit>(&mut self, v: &mut V) {
        let settings = &mut self.numbers.settings;
        v.two(&mut settings.ground);
        v.two(&mut settings.fault);
        v.two(&mut settings.base);
        v.count(&mut self.numbers.nroutes);
        v.twos(&mut self.routeids);
        v.bytes(&mut self.dests);
        v.count(&mut self.numbers.nprotected);
        v.twos(&mut self.protected_ids);
        v.count(&mut self.numbers.nrows);
        v.twos(&mut self.faultids);
        v.twos(&mut self.responses);
        v.bytes(&mut self.latching);
        v.bytes(&mut self.argcounts);
        v.bytes(&mut self.args);
    }
}

const NO_RUN: ffi::Run = ffi::Run {
    standing: ffi::Standing {
        armed: 0,
        ticks: 0,
        counts: ffi::Counts {
            a: 0,
            r: 0,
            d: 0,
            p: 0,
            u: 0,
            i: 0,
            f: 0,
        },
    },
    states: [0; ROWS],
};

const NO_CONFIG: ffi::Config = ffi::Config {
    numbers: ffi::Numbers {
        settings: ffi::Settings {
            ground: 0,
            fault: 0,
            base: 0,
        },
        nroutes: 0,
        nprotected: 0,
        nrows: 0,
    },
    routeids: [0; ROUTES],
    dests: [0; ROUTES],
    protected_ids: [0; PROTECTED_IDS],
    faultids: [0; ROWS],
    responses: [0; ROWS],
    latching: [0; ROWS],
    argcounts: [0; ROWS],
    args: [0; ROWS * ROW_ARGUMENTS],
};

impl State {
    /// The state as bytes, with the check value of the configuration it belongs to.
    pub fn to_bytes(&self, configuration: &Configuration) -> [u8; STATE_BYTES] {
        let mut bytes = [0; STATE_BYTES];
        let mut places = Save(bytes[HEAD..].iter_mut());
        places.bytes(&mut configuration.check());
        self.clone().0.each(&mut places);
        STATE.seal(&mut bytes);
        bytes
    }

    /// A state from its bytes, to go on under that configuration; or why they are not taken.
    ///
    /// No rule of a state is asked for here: steps on one that was saved and breaks its rules answer
    /// [`crate::Outcome::BadState`].
    ///
    /// ```
    /// use tamezohishu::{Configuration, SavedError, State};
    ///
    /// # fn main() -> Result<(), Box<dyn std::error::Error>> {
    /// let image = [6, 0, 1, 0, 1, 0, 2, 0, 100, 0, 3, 0, 2, 0, 20, 0, 2];
    /// let (configuration, state) = Configuration::load(&image)?;
    /// let mut bytes = state.to_bytes(&configuration);
    /// assert_eq!(State::from_bytes(&configuration, &bytes)?, state);
    ///
    /// bytes[8] ^= 1; // armed, and no ticks remain: this keeps every rule of a state
    /// let damaged = State::from_bytes(&configuration, &bytes);
    /// assert_eq!(damaged, Err(SavedError::Damaged));
    /// # Ok(())
    /// # }
    /// ```
    pub fn from_bytes(configuration: &Configuration, bytes: &[u8]) -> Result<State, SavedError> {
        let mut places = Restore(STATE.open(bytes)?.iter());
        let mut check = [0; CHECK];
        places.bytes(&mut check);
        if check != configuration.check() {
            return Err(SavedError::OtherConfiguration);
        }
        let mut run = NO_RUN;
        run.each(&mut places);
        Ok(State(run))
    }
}

impl Configuration {
    /// The configuration as bytes.
    pub fn to_bytes(&self) -> [u8; CONFIGURATION_BYTES] {
        let mut bytes = [0; CONFIGURATION_BYTES];
        self.clone().0.each(&mut Save(bytes[HEAD..].iter_mut()));
        CONFIGURATION.seal(&mut bytes);
        bytes
    }

    /// A configuration from its bytes, or why they are not taken. As with a state, no rule is asked for here.
    pub fn from_bytes(bytes: &[u8]) -> Result<Configuration, SavedError> {
        let mut config = NO_CONFIG;
        config.each(&mut Restore(CONFIGURATION.open(bytes)?.iter()));
        Ok(Configuration(config))
    }

    /// The check value that its saved form ends with, by which a saved state knows it.
    fn check(&self) -> [u8; CHECK] {
        let [.., a, b, c, d] = self.to_bytes();
        [a, b, c, d]
    }
}
