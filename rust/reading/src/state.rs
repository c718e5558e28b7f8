//! The state: configuration and running part, and the rule behind answer 20.

// "At most 128 routes, 32 protected ids, 32 fault rows."
pub const MAX_ROUTES: usize = 128;
pub const MAX_PROTECTED: usize = 32;
pub const MAX_ROWS: usize = 32;
// "n (0 to 16)"
pub const MAX_ARGUMENTS: usize = 16;
/// The argument places of all fault rows.
const ARGUMENT_PLACES: usize = 512;

// "all seven counters A, R, D, P, U, I, F"
pub const A: usize = 0;
pub const R: usize = 1;
pub const D: usize = 2;
pub const P: usize = 3;
pub const U: usize = 4;
pub const I: usize = 5;
pub const F: usize = 6;

/// What the image's records say, with the unused places of every table.
#[derive(Clone, PartialEq, Eq, Debug)]
pub struct Config {
    pub ground: u16,
    pub fault: u16,
    pub base: u16,
    pub nroutes: usize,
    pub routeids: [u16; MAX_ROUTES],
    pub dests: [u8; MAX_ROUTES],
    pub nprotected: usize,
    pub protected: [u16; MAX_PROTECTED],
    pub nrows: usize,
    pub faultids: [u16; MAX_ROWS],
    pub responses: [u16; MAX_ROWS],
    pub latching: [u8; MAX_ROWS],
    pub argcounts: [u8; MAX_ROWS],
    /// Row k's argument j is at k * 16 + j.
    pub args: [u8; ARGUMENT_PLACES],
}

/// What the steps change.
#[derive(Clone, PartialEq, Eq, Debug)]
pub struct Run {
    pub armed: bool,
    pub ticks: u16,
    /// In the order A, R, D, P, U, I, F.
    pub counts: [u16; 7],
    pub states: [u8; MAX_ROWS],
}

impl Config {
    /// "The state handed back on refusal is all zero, all tables empty"
    pub fn zero() -> Config {
        Config {
            ground: 0,
            fault: 0,
            base: 0,
            nroutes: 0,
            routeids: [0; MAX_ROUTES],
            dests: [0; MAX_ROUTES],
            nprotected: 0,
            protected: [0; MAX_PROTECTED],
            nrows: 0,
            faultids: [0; MAX_ROWS],
            responses: [0; MAX_ROWS],
            latching: [0; MAX_ROWS],
            argcounts: [0; MAX_ROWS],
            args: [0; ARGUMENT_PLACES],
        }
    }

    /// "Own ids are own base to own base + 7." The id less own base, 0 to 7, for an
    /// own id.
    pub(crate) fn own(&self, id: u16) -> Option<u16> {
        match id.checked_sub(self.base) {
            None => None,
            Some(which) => {
                if which <= 7 {
                    Some(which)
                } else {
                    None
                }
            }
        }
    }

    /// The destination of a routed id.
    pub(crate) fn route(&self, id: u16) -> Option<u8> {
        let rows = self.routeids.iter().zip(self.dests.iter());
        for (routed, dest) in rows.take(self.nroutes) {
            if *routed == id {
                return Some(*dest);
            }
        }
        None
    }

    /// Whether the id is in the table of protected ids.
    pub(crate) fn is_protected(&self, id: u16) -> bool {
        for protected in self.protected.iter().take(self.nprotected) {
            if *protected == id {
                return true;
            }
        }
        false
    }

    /// The row of a fault id. "Fault ids are unique."
    pub(crate) fn row(&self, fault: u16) -> Option<usize> {
        for (k, known) in self.faultids.iter().enumerate().take(self.nrows) {
            if *known == fault {
                return Some(k);
            }
        }
        None
    }

    /// The sixteen argument places of row k, used and unused.
    pub(crate) fn places(&self, k: usize) -> &[u8] {
        let from = k.saturating_mul(MAX_ARGUMENTS);
        let to = from.saturating_add(MAX_ARGUMENTS);
        match self.args.get(from..to) {
            Some(places) => places,
            None => &[],
        }
    }
}

impl Run {
    /// "all zero"; also "an unarmed state, zero counters"
    pub fn zero() -> Run {
        Run {
            armed: false,
            ticks: 0,
            counts: [0; 7],
            states: [0; MAX_ROWS],
        }
    }

    /// "Counters wrap at 65,536."
    pub(crate) fn count(&mut self, which: usize) {
        if let Some(counter) = self.counts.get_mut(which) {
            *counter = counter.wrapping_add(1);
        }
    }
}

// The rules for single records "of the table of kinds or of the paragraph under
// it" that bear refusal number 7. Both the loading and answer 20 read them here.

/// The rules of a kind 1 record.
pub(crate) fn good_basics(ground: u16, fault: u16, base: u16) -> bool {
    // "The ground and fault sources differ"
    let sources = ground != fault;
    // "own base is at most 65,528"
    let own = base <= 65_528;
    sources && own
}

/// The rules of a kind 2 record.
pub(crate) fn good_route(config: &Config, id: u16, dest: u8) -> bool {
    // "destination (one byte, 1 to 31)"
    let range = (1..=31).contains(&dest);
    // "no routed id is an own id"
    let foreign = config.own(id).is_none();
    range && foreign
}

/// The rules of a kind 3 record.
pub(crate) fn good_protected(config: &Config, id: u16) -> bool {
    // "a protected id is routed or own"
    let known = config.route(id).is_some() || config.own(id).is_some();
    // "but never the arm id"; "The id less own base selects: 0 arm"
    let not_arm = config.own(id) != Some(0);
    known && not_arm
}

/// The rules of a kind 4 record, its start state aside.
pub(crate) fn good_row(config: &Config, response: u16, latching: u8) -> bool {
    // "latching (0 or 1)"
    let latch = latching <= 1;
    // "a response id is routed"
    let routed = config.route(response).is_some();
    latch && routed
}

/// "ids rise strictly within kinds 2, 3 and 4", read over the used places.
fn rising(ids: &[u16], used: usize) -> bool {
    let mut before: Option<u16> = None;
    for id in ids.iter().take(used) {
        if let Some(last) = before {
            if *id <= last {
                return false;
            }
        }
        before = Some(*id);
    }
    true
}

/// The places after the used ones are all zero.
fn rest_zero_16(places: &[u16], used: usize) -> bool {
    places.iter().skip(used).all(|place| *place == 0)
}

/// The places after the used ones are all zero.
fn rest_zero_8(places: &[u8], used: usize) -> bool {
    places.iter().skip(used).all(|place| *place == 0)
}

/// "its configuration, start states aside, breaks those above" - here: keeps them.
fn keeps_configuration(config: &Config) -> bool {
    // "At most 128 routes, 32 protected ids, 32 fault rows."
    if config.nroutes > MAX_ROUTES {
        return false;
    }
    if config.nprotected > MAX_PROTECTED {
        return false;
    }
    if config.nrows > MAX_ROWS {
        return false;
    }

    // "The ground and fault sources differ, own base is at most 65,528"
    if !good_basics(config.ground, config.fault, config.base) {
        return false;
    }

    // "ids rise strictly within kinds 2, 3 and 4"
    if !rising(&config.routeids, config.nroutes) {
        return false;
    }
    if !rising(&config.protected, config.nprotected) {
        return false;
    }
    if !rising(&config.faultids, config.nrows) {
        return false;
    }

    // "destination (one byte, 1 to 31)", "no routed id is an own id"
    for k in 0..config.nroutes {
        if !good_route(config, config.routeids[k], config.dests[k]) {
            return false;
        }
    }

    // "a protected id is routed or own but never the arm id"
    for k in 0..config.nprotected {
        if !good_protected(config, config.protected[k]) {
            return false;
        }
    }

    // "latching (0 or 1), n (0 to 16)", "a response id is routed"
    for k in 0..config.nrows {
        if !good_row(config, config.responses[k], config.latching[k]) {
            return false;
        }
        if usize::from(config.argcounts[k]) > MAX_ARGUMENTS {
            return false;
        }
    }
    true
}

/// "an unused row or argument byte isn't zero" - here: all of them are zero.
fn keeps_unused(config: &Config, run: &Run) -> bool {
    // Unused routes.
    if !rest_zero_16(&config.routeids, config.nroutes) {
        return false;
    }
    if !rest_zero_8(&config.dests, config.nroutes) {
        return false;
    }
    // Unused protected ids.
    if !rest_zero_16(&config.protected, config.nprotected) {
        return false;
    }
    // Unused fault rows, their states too.
    if !rest_zero_16(&config.faultids, config.nrows) {
        return false;
    }
    if !rest_zero_16(&config.responses, config.nrows) {
        return false;
    }
    if !rest_zero_8(&config.latching, config.nrows) {
        return false;
    }
    if !rest_zero_8(&config.argcounts, config.nrows) {
        return false;
    }
    if !rest_zero_8(&run.states, config.nrows) {
        return false;
    }
    // Unused argument bytes: past n in a used row, all sixteen in an unused one.
    for k in 0..MAX_ROWS {
        let used = if k < config.nrows {
            usize::from(config.argcounts[k])
        } else {
            0
        };
        if !rest_zero_8(config.places(k), used) {
            return false;
        }
    }
    true
}

/// The rule behind answer 20. "A state breaks its rules where its configuration,
/// start states aside, breaks those above, an unused row or argument byte isn't
/// zero, it is unarmed with ticks remaining or holds more than 255, a fault state
/// (0 disabled, 1 enabled, 2 latched) is above 2, or a row that doesn't latch is
/// latched."
pub fn keeps_rules(config: &Config, run: &Run) -> bool {
    // "its configuration, start states aside, breaks those above"
    if !keeps_configuration(config) {
        return false;
    }

    // "an unused row or argument byte isn't zero"
    if !keeps_unused(config, run) {
        return false;
    }

    // "it is unarmed with ticks remaining"
    if !run.armed && run.ticks != 0 {
        return false;
    }
    // "or holds more than 255"
    if run.ticks > 255 {
        return false;
    }

    for k in 0..config.nrows {
        // "a fault state (0 disabled, 1 enabled, 2 latched) is above 2"
        if run.states[k] > 2 {
            return false;
        }
        // "or a row that doesn't latch is latched"
        if config.latching[k] == 0 && run.states[k] == 2 {
            return false;
        }
    }
    true
}
