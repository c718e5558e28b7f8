//! The same state on both sides: the reading's structs, and the bytes that `tamezohishu` saves a state and a configuration to.

use crate::{raw, saved};
use tamezohishu::{CONFIGURATION_BYTES, STATE_BYTES};

/// Puts bytes one behind another.
struct Writer<'a>(&'a mut [u8]);

impl Writer<'_> {
    fn put(&mut self, bytes: &[u8]) {
        let place = std::mem::take(&mut self.0);
        let (head, rest) = place.split_at_mut(bytes.len());
        head.copy_from_slice(bytes);
        self.0 = rest;
    }

    fn twos(&mut self, numbers: &[u16]) {
        numbers.iter().for_each(|n| self.put(&n.to_le_bytes()));
    }

    fn count(&mut self, number: usize) {
        self.put(&(number as u64).to_le_bytes());
    }
}

/// The reading's run as a saved state, under a configuration whose saved form has this check value. `armed` is a byte of its
/// own: the boundary can hold more than yes and no.
pub fn state_bytes(run: &reading::Run, armed: u8, check: [u8; 4]) -> [u8; STATE_BYTES] {
    let mut bytes = [0; STATE_BYTES];
    let mut w = Writer(&mut bytes);
    w.put(&saved::STATE);
    w.put(&check);
    w.put(&[armed]);
    w.twos(&[run.ticks]);
    w.twos(&run.counts);
    w.put(&run.states);
    saved::seal(&mut bytes);
    bytes
}

/// The reading's configuration as a saved configuration.
pub fn configuration_bytes(config: &reading::Config) -> [u8; CONFIGURATION_BYTES] {
    let mut bytes = [0; CONFIGURATION_BYTES];
    let mut w = Writer(&mut bytes);
    w.put(&saved::CONFIGURATION);
    w.twos(&[config.ground, config.fault, config.base]);
    w.count(config.nroutes);
    w.twos(&config.routeids);
    w.put(&config.dests);
    w.count(config.nprotected);
    w.twos(&config.protected);
    w.count(config.nrows);
    w.twos(&config.faultids);
    w.twos(&config.responses);
    w.put(&config.latching);
    w.put(&config.argcounts);
    w.put(&config.args);
    saved::seal(&mut bytes);
    bytes
}

/// The check value at the end of a saved configuration.
pub fn check_of(bytes: &[u8; CONFIGURATION_BYTES]) -> [u8; 4] {
    let [.., a, b, c, d] = *bytes;
    [a, b, c, d]
}

/// Whether two configurations are the same in every place, used or not.
pub fn same_config(a: &raw::Config, b: &reading::Config) -> bool {
    a.numbers.ground == b.ground
        && a.numbers.fault == b.fault
        && a.numbers.base == b.base
        && a.numbers.nroutes == b.nroutes
        && a.routeids == b.routeids
        && a.dests == b.dests
        && a.numbers.nprotected == b.nprotected
        && a.protected_ids == b.protected
        && a.numbers.nrows == b.nrows
        && a.faultids == b.faultids
        && a.responses == b.responses
        && a.latching == b.latching
        && a.argcounts == b.argcounts
        && a.args == b.args
}

pub fn same_run(a: &raw::Run, b: &reading::Run) -> bool {
    a.armed == u8::from(b.armed)
        && a.ticks == b.ticks
        && a.counts == b.counts
        && a.states == b.states
}

/// Bytes for a report, at most the first 2,000 of them.
pub fn hex(bytes: &[u8]) -> String {
    let shown = bytes.iter().take(2000).map(|b| format!("{b:02x}"));
    let mut text = shown.collect::<Vec<_>>().join(" ");
    if bytes.len() > 2000 {
        text.push_str(&format!(" .. ({} bytes)", bytes.len()));
    }
    text
}
