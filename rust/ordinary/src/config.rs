//! The tables, and what steps change.

pub const ROUTES: usize = 128;
pub const PROTECTED_IDS: usize = 32;
pub const ROWS: usize = 32;
pub const ROW_ARGS: usize = 16;

/// The configuration. Rows past a count are zero.
#[derive(Clone, Debug, PartialEq, Eq)]
pub struct Config {
    pub ground: u16,
    pub fault: u16,
    pub base: u16,
    pub nroutes: usize,
    pub route_ids: [u16; ROUTES],
    pub dests: [u8; ROUTES],
    pub nprotected: usize,
    pub protected: [u16; PROTECTED_IDS],
    pub nrows: usize,
    pub fault_ids: [u16; ROWS],
    pub responses: [u16; ROWS],
    pub latching: [u8; ROWS],
    pub arg_counts: [u8; ROWS],
    pub args: [[u8; ROW_ARGS]; ROWS],
}

/// The arm record, the counters and the states of the fault rows.
#[derive(Clone, Debug, PartialEq, Eq)]
pub struct Run {
    pub armed: bool,
    pub ticks: u16,
    pub accepted: u16,
    pub rejected: u16,
    pub dispatched: u16,
    pub protected: u16,
    pub unknown: u16,
    pub invalid: u16,
    pub faults: u16,
    /// 0 disabled, 1 enabled, 2 latched.
    pub states: [u8; ROWS],
}

impl Config {
    pub const EMPTY: Config = Config {
        ground: 0,
        fault: 0,
        base: 0,
        nroutes: 0,
        route_ids: [0; ROUTES],
        dests: [0; ROUTES],
        nprotected: 0,
        protected: [0; PROTECTED_IDS],
        nrows: 0,
        fault_ids: [0; ROWS],
        responses: [0; ROWS],
        latching: [0; ROWS],
        arg_counts: [0; ROWS],
        args: [[0; ROW_ARGS]; ROWS],
    };

    /// Which own command an id is, 0 to 7.
    #[inline]
    pub(crate) fn own(&self, id: u16) -> Option<u16> {
        let which = id.wrapping_sub(self.base);
        (which < 8).then_some(which)
    }

    /// The destination of a routed id.
    #[inline]
    pub(crate) fn route(&self, id: u16) -> Option<u8> {
        let place = self.route_ids[..self.nroutes].binary_search(&id).ok()?;
        Some(self.dests[place])
    }

    #[inline]
    pub(crate) fn is_protected(&self, id: u16) -> bool {
        self.protected[..self.nprotected].binary_search(&id).is_ok()
    }

    /// The row of a fault.
    #[inline]
    pub(crate) fn row(&self, fault: u16) -> Option<usize> {
        self.fault_ids[..self.nrows].binary_search(&fault).ok()
    }
}

impl Run {
    pub const START: Run = Run {
        armed: false,
        ticks: 0,
        accepted: 0,
        rejected: 0,
        dispatched: 0,
        protected: 0,
        unknown: 0,
        invalid: 0,
        faults: 0,
        states: [0; ROWS],
    };

    /// The counters, in the order A, R, D, P, U, I, F.
    pub fn counters(&self) -> [u16; 7] {
        [
            self.accepted,
            self.rejected,
            self.dispatched,
            self.protected,
            self.unknown,
            self.invalid,
            self.faults,
        ]
    }
}
