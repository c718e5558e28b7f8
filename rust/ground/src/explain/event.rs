//! One event of a session: what came, what the library answered to it, and the states before and behind it. Beside them stands
//! which earlier event the arm record and each fault row have their state from.

use std::fmt;
use tamezohishu::{arguments, Answer, Configuration, FaultState, Outcome, State, ROWS};

/// What a record that was answered holds.
#[derive(Clone, Copy, PartialEq, Eq, Debug)]
pub enum Came<'a> {
    Packet(&'a [u8]),
    Tick,
    Fault(u16),
    /// A kind that the library answers and this program has no words for.
    Other(u16),
}

impl<'a> Came<'a> {
    /// What stands in a record. Whether it is a good one is not asked here: the library has answered it.
    pub fn of(record: &'a [u8]) -> Came<'a> {
        match record {
            [_, _, 16, 0, packet @ ..] => Came::Packet(packet),
            [_, _, 17, 0] => Came::Tick,
            [_, _, 18, 0, low, high] => Came::Fault(u16::from_le_bytes([*low, *high])),
            [_, _, low, high, ..] => Came::Other(u16::from_le_bytes([*low, *high])),
            _ => Came::Other(0),
        }
    }

    /// The name of its kind.
    pub fn kind(&self) -> &'static str {
        match self {
            Came::Packet(_) => "packet",
            Came::Tick => "tick",
            Came::Fault(_) => "fault",
            Came::Other(_) => "record",
        }
    }
}

/// An event, for those who find words for it.
pub struct Event<'a> {
    /// Its number in the session, from 1.
    pub number: u64,
    /// How many ticks came before it.
    pub time: u64,
    /// The body of its record.
    pub body: &'a [u8],
    pub came: Came<'a>,
    pub answer: Answer,
    /// The command dispatched; empty for any answer but that.
    pub command: &'a [u8],
    pub configuration: &'a Configuration,
    pub before: &'a State,
    pub after: &'a State,
    pub past: &'a Past,
}

/// A fault row around an event.
pub struct Row {
    pub fault: u16,
    pub before: FaultState,
    pub after: FaultState,
    /// The event that its state before has it from.
    pub since: Option<Moment>,
}

impl<'a> Event<'a> {
    /// The packet's bytes; none for what is no packet.
    pub fn packet(&self) -> &'a [u8] {
        match self.came {
            Came::Packet(packet) => packet,
            _ => &[],
        }
    }

    /// The event, as words of later ones refer to it.
    pub fn moment(&self) -> Moment {
        Moment {
            event: self.number,
            time: self.time,
            kind: self.came.kind(),
        }
    }

    /// Whether it is a packet that was accepted. A state that breaks its rules, or too little room, judges no packet.
    pub fn is_accepted(&self) -> bool {
        let outcome = self.answer.outcome;
        let judged = !matches!(outcome, Outcome::BadState | Outcome::NoRoom);
        matches!(self.came, Came::Packet(_)) && judged && !outcome.is_rejected()
    }

    /// The argument bytes of a packet that was accepted.
    pub fn arguments(&self) -> &'a [u8] {
        arguments(self.packet())
    }

    /// Which of the own commands its id selects, by the id less own base.
    pub fn own(&self) -> Option<usize> {
        let which = self
            .answer
            .id
            .checked_sub(self.configuration.own_base())
            .map(usize::from)?;
        (self.is_accepted() && which < OWN.len()).then_some(which)
    }

    /// Whether its id is one of the protected.
    pub fn is_protected(&self) -> bool {
        self.configuration.protected_ids().contains(&self.answer.id)
    }

    /// The fault that an own command of two argument bytes names, for those that take one.
    pub fn named_fault(&self) -> Option<u16> {
        match (self.own()?, self.arguments()) {
            (4..=6, [high, low]) => Some(u16::from_be_bytes([*high, *low])),
            _ => None,
        }
    }

    /// The fault rows, by rising fault id.
    pub fn rows(&self) -> impl Iterator<Item = Row> + '_ {
        let before = self.before.fault_states(self.configuration);
        let after = self.after.fault_states(self.configuration);
        let states = before.zip(after).zip(&self.past.rows);
        let rows = self.configuration.fault_rows().zip(states);
        rows.map(|(row, ((before, after), since))| Row {
            fault: row.fault,
            before,
            after,
            since: *since,
        })
    }

    /// The row of a fault.
    pub fn row(&self, fault: u16) -> Option<Row> {
        self.rows().find(|row| row.fault == fault)
    }
}

/// The own commands by their place: the words for each, and how many argument bytes it takes.
pub const OWN: [(&str, usize); 8] = [
    ("arm", 1),
    ("reset counters", 0),
    ("no-op", 0),
    ("no-op with argument", 4),
    ("enable", 2),
    ("disable", 2),
    ("clear", 2),
    ("clear all", 0),
];

/// An earlier event, as words refer to it.
#[derive(Clone, Copy, PartialEq, Eq, Debug)]
pub struct Moment {
    pub event: u64,
    time: u64,
    kind: &'static str,
}

impl fmt::Display for Moment {
    fn fmt(&self, f: &mut fmt::Formatter<'_>) -> fmt::Result {
        let Moment { event, time, kind } = self;
        write!(f, "the {kind} of event {event} at time {time}")
    }
}

/// Since when something is as it is. What no event has moved is so since loading.
pub struct Since(pub Option<Moment>);

impl fmt::Display for Since {
    fn fmt(&self, f: &mut fmt::Formatter<'_>) -> fmt::Result {
        match self.0 {
            Some(moment) => write!(f, "since {moment}"),
            None => f.write_str("since loading"),
        }
    }
}

/// Which earlier events the arm record and the fault rows have their states from. None is loading.
#[derive(Default)]
pub struct Past {
    /// The event that armed or unarmed last; an arming that was taken while armed counts.
    pub arm: Option<Moment>,
    rows: [Option<Moment>; ROWS],
}

impl Past {
    /// Keeps what was moved at this moment. The states around it tell, and the outcome where an arming was taken again.
    pub fn keep(
        &mut self,
        moment: Moment,
        outcome: Outcome,
        configuration: &Configuration,
        before: &State,
        after: &State,
    ) {
        if before.is_armed() != after.is_armed() || outcome == Outcome::Armed {
            self.arm = Some(moment);
        }
        let before = before.fault_states(configuration);
        let states = before.zip(after.fault_states(configuration));
        for (since, (before, after)) in self.rows.iter_mut().zip(states) {
            if before != after {
                *since = Some(moment);
            }
        }
    }
}

#[cfg(test)]
mod tests {
    use super::*;

    #[test]
    fn records_in_words() {
        assert_eq!(Came::of(&[2, 0, 16, 0, 7, 8]), Came::Packet(&[7, 8]));
        assert_eq!(Came::of(&[0, 0, 16, 0]), Came::Packet(&[]));
        assert_eq!(Came::of(&[0, 0, 17, 0]), Came::Tick);
        assert_eq!(Came::of(&[2, 0, 18, 0, 1, 2]), Came::Fault(0x0201));
        assert_eq!(Came::of(&[0, 0, 16, 1]), Came::Other(0x0110));
        assert_eq!(Came::of(&[]), Came::Other(0));
    }

    #[test]
    fn moments_in_words() {
        let moment = Moment {
            event: 7,
            time: 2,
            kind: "tick",
        };
        let since = Since(Some(moment)).to_string();
        assert_eq!(since, "since the tick of event 7 at time 2");
        assert_eq!(Since(None).to_string(), "since loading");
    }
}
