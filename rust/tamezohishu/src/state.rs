//! The state that steps change, and the steps.

use crate::configuration::Configuration;
use crate::ffi;
use crate::numbers::{FaultState, Outcome};
use std::fmt;

/// The state of a running path: the arm record, the counters and the states of the fault rows.
///
/// It belongs to the [`Configuration`] it was loaded with. The library judges both at each step, and answers
/// [`Outcome::BadState`] where they break a rule, changing nothing. A state of another configuration may happen to keep the
/// rules: then no step tells. A saved state knows its configuration ([`State::from_bytes`]).
#[derive(Clone, PartialEq, Eq, Debug)]
pub struct State(pub(crate) ffi::Run);

/// The four numbers of an answer. As text they are the line that the step program prints.
#[derive(Clone, Copy, PartialEq, Eq, Debug)]
pub struct Answer {
    pub outcome: Outcome,
    /// The command id, for outcomes 10, 11, 12 and 30 to 33; else 0.
    pub id: u16,
    /// The destination of a command dispatched; else 0.
    pub destination: u8,
    /// How many bytes of the output hold the command dispatched; else 0.
    pub written: u16,
}

impl fmt::Display for Answer {
    fn fmt(&self, f: &mut fmt::Formatter<'_>) -> fmt::Result {
        let number = self.outcome.number();
        write!(
            f,
            "{number} {} {} {}",
            self.id, self.destination, self.written
        )
    }
}

impl Answer {
    /// Taken by reference: by value, the compiler takes it in one register and cuts the numbers out of it.
    fn of(answer: &ffi::Answer) -> Answer {
        Answer {
            outcome: Outcome::from(answer.answer),
            id: answer.id,
            destination: answer.dest,
            written: answer.written,
        }
    }
}

/// The seven counters, each modulo 65,536.
#[derive(Clone, Copy, PartialEq, Eq, Debug, Default)]
pub struct Counters {
    /// A: accepted packets.
    pub accepted: u16,
    /// R: rejected packets.
    pub rejected: u16,
    /// D: commands dispatched.
    pub dispatched: u16,
    /// P: protected commands that were stopped.
    pub protected: u16,
    /// U: ids neither own nor routed.
    pub unknown: u16,
    /// I: own commands that were refused.
    pub invalid: u16,
    /// F: faults.
    pub faults: u16,
}

impl From<ffi::Counts> for Counters {
    fn from(counts: ffi::Counts) -> Counters {
        Counters {
            accepted: counts.a,
            rejected: counts.r,
            dispatched: counts.d,
            protected: counts.p,
            unknown: counts.u,
            invalid: counts.i,
            faults: counts.f,
        }
    }
}

impl State {
    /// The step of a telecommand packet. `out` needs [`crate::ROOM`] bytes; a command dispatched stands at its start, and
    /// the bytes behind it stay as they were.
    pub fn packet(
        &mut self,
        configuration: &Configuration,
        packet: &[u8],
        out: &mut [u8],
    ) -> Answer {
        let (input, length) = (packet.as_ptr(), packet.len());
        let (output, room) = (out.as_mut_ptr(), out.len());
        // SAFETY: packet and output are not null and have so many bytes; nothing else has `out`, so it overlaps nothing.
        let left =
            unsafe { ffi::packet(&configuration.0, &mut self.0, input, length, output, room) };
        Answer::of(&left.answer)
    }

    /// The step of a clock tick.
    pub fn tick(&mut self, configuration: &Configuration) -> Answer {
        // SAFETY: there is no pointer beside what is lent.
        let left = unsafe { ffi::tick(&configuration.0, &mut self.0) };
        Answer::of(&left.answer)
    }

    /// The step of a fault number; `out` as in [`State::packet`].
    pub fn fault(&mut self, configuration: &Configuration, fault: u16, out: &mut [u8]) -> Answer {
        let (output, room) = (out.as_mut_ptr(), out.len());
        // SAFETY: as in `packet`.
        let left = unsafe { ffi::fault(&configuration.0, &mut self.0, fault, output, room) };
        Answer::of(&left.answer)
    }

    /// Whether the path is armed.
    pub fn is_armed(&self) -> bool {
        self.0.standing.armed != 0
    }

    /// The ticks that remain of an armed state; 0 where it has no timeout, and in an unarmed one.
    pub fn ticks(&self) -> u16 {
        self.0.standing.ticks
    }

    /// The seven counters.
    pub fn counters(&self) -> Counters {
        Counters::from(self.0.standing.counts)
    }

    /// The states of the fault rows, in the order of [`Configuration::fault_rows`].
    pub fn fault_states<'a>(
        &'a self,
        configuration: &'a Configuration,
    ) -> impl Iterator<Item = FaultState> + 'a {
        let used = self.0.states.iter().take(configuration.0.numbers.nrows);
        used.map(|&state| FaultState::from(state))
    }
}
