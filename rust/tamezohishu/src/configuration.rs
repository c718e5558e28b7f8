//! The configuration: loaded once, and only ever read.

use crate::ffi;
use crate::sizes::{ROWS, ROW_ARGUMENTS};

/// A configuration. It comes from [`Configuration::load`], or from bytes that an earlier one was saved to.
#[derive(Clone, PartialEq, Eq, Debug)]
pub struct Configuration(pub(crate) ffi::Config);

/// A command id and the destination it goes to.
#[derive(Clone, Copy, PartialEq, Eq, Debug)]
pub struct Route {
    pub id: u16,
    pub destination: u8,
}

/// A fault and the command that answers it.
#[derive(Clone, Copy, PartialEq, Eq, Debug)]
pub struct FaultRow<'a> {
    pub fault: u16,
    pub response: u16,
    pub latching: bool,
    pub arguments: &'a [u8],
}

impl Configuration {
    /// The source number of commands from the ground.
    pub fn ground_source(&self) -> u16 {
        self.0.numbers.settings.ground
    }

    /// The source number of fault responses.
    pub fn fault_source(&self) -> u16 {
        self.0.numbers.settings.fault
    }

    /// The first of the eight own ids.
    pub fn own_base(&self) -> u16 {
        self.0.numbers.settings.base
    }

    // A count beyond its table, in a configuration from bytes that say so, gives the whole table below.

    /// The routes in use, by rising id.
    pub fn routes(&self) -> impl Iterator<Item = Route> + '_ {
        let both = self.0.routeids.iter().zip(&self.0.dests);
        let used = both.take(self.0.numbers.nroutes);
        used.map(|(&id, &destination)| Route { id, destination })
    }

    /// The protected ids in use, rising.
    pub fn protected_ids(&self) -> &[u16] {
        let ids = &self.0.protected_ids;
        &ids[..self.0.numbers.nprotected.min(ids.len())]
    }

    /// The fault rows in use, by rising fault id.
    pub fn fault_rows(&self) -> impl Iterator<Item = FaultRow<'_>> + '_ {
        (0..self.0.numbers.nrows.min(ROWS)).map(|k| {
            let places = &self.0.args[k * ROW_ARGUMENTS..][..ROW_ARGUMENTS];
            FaultRow {
                fault: self.0.faultids[k],
                response: self.0.responses[k],
                latching: self.0.latching[k] != 0,
                arguments: &places[..usize::from(self.0.argcounts[k]).min(ROW_ARGUMENTS)],
            }
        })
    }
}
