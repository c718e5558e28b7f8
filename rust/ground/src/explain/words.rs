//! What came, the arm record, the counters and the fault rows in words.

use super::event::{Came, Event, OWN};
use super::hex::Start;
use std::fmt;
use tamezohishu::{Counters, State};

/// So many of something: `1 tick`, `2 ticks`.
pub struct Many<T>(pub T, pub &'static str);

impl<T: fmt::Display + Copy + Into<u64>> fmt::Display for Many<T> {
    fn fmt(&self, f: &mut fmt::Formatter<'_>) -> fmt::Result {
        let plural = if self.0.into() == 1 { "" } else { "s" };
        write!(f, "{} {}{plural}", self.0, self.1)
    }
}

/// What came with an event. Of a packet that was rejected no field is told: its bytes may be anything.
pub struct What<'a>(pub &'a Event<'a>);

impl fmt::Display for What<'_> {
    fn fmt(&self, f: &mut fmt::Formatter<'_>) -> fmt::Result {
        let event = self.0;
        match event.came {
            Came::Packet(_) if event.is_accepted() => command(event, f),
            Came::Packet([]) => f.write_str("packet of 0 bytes"),
            Came::Packet(packet) => {
                let size = Many(packet.len() as u64, "byte");
                write!(f, "packet of {size}, {}", Start(packet))
            }
            Came::Tick => f.write_str("tick"),
            Came::Fault(fault) => write!(f, "fault {fault}"),
            Came::Other(kind) => write!(f, "record of kind {kind}"),
        }
    }
}

/// The command of an accepted packet.
fn command(event: &Event, f: &mut fmt::Formatter<'_>) -> fmt::Result {
    let arguments = event.arguments();
    write!(f, "packet, command {}", event.answer.id)?;
    match (event.own(), event.named_fault(), arguments) {
        (Some(0), _, [timeout]) => write!(f, " (arm, timeout {timeout})")?,
        (Some(which), Some(fault), _) => write!(f, " ({} fault {fault})", OWN[which].0)?,
        (Some(which), None, _) => {
            write!(f, " ({})", OWN[which].0)?;
            list(arguments, f)?;
        }
        (None, _, _) => list(arguments, f)?,
    }
    // The packet is ten bytes, its arguments and its pads.
    match event.packet().len().saturating_sub(10 + arguments.len()) {
        0 => Ok(()),
        pads => write!(f, ", {}", Many(pads as u64, "pad")),
    }
}

/// How many arguments there are, and which.
fn list(arguments: &[u8], f: &mut fmt::Formatter<'_>) -> fmt::Result {
    match arguments.len() as u64 {
        0 => f.write_str(", no arguments"),
        many => write!(f, ", {} {}", Many(many, "argument"), Start(arguments)),
    }
}

/// The arm record behind an event, and whether it was switched.
pub struct Arm<'a> {
    pub before: &'a State,
    pub after: &'a State,
}

impl fmt::Display for Arm<'_> {
    fn fmt(&self, f: &mut fmt::Formatter<'_>) -> fmt::Result {
        if self.before.is_armed() != self.after.is_armed() {
            f.write_str("now ")?;
        }
        match (self.after.is_armed(), self.after.ticks()) {
            (false, _) => f.write_str("unarmed"),
            (true, 0) => f.write_str("armed, no timeout"),
            (true, ticks) => write!(f, "armed, {} left", Many(ticks, "tick")),
        }
    }
}

/// The counters by their letters, in the order of the paper.
pub fn lettered(counters: &Counters) -> [(&'static str, u16); 7] {
    [
        ("A", counters.accepted),
        ("R", counters.rejected),
        ("D", counters.dispatched),
        ("P", counters.protected),
        ("U", counters.unknown),
        ("I", counters.invalid),
        ("F", counters.faults),
    ]
}

/// All seven counters, `A1 R0 D0 P1 U0 I0 F0`.
pub struct Counts(pub Counters);

impl fmt::Display for Counts {
    fn fmt(&self, f: &mut fmt::Formatter<'_>) -> fmt::Result {
        for (place, (letter, count)) in lettered(&self.0).iter().enumerate() {
            let space = if place > 0 { " " } else { "" };
            write!(f, "{space}{letter}{count}")?;
        }
        Ok(())
    }
}

/// Numbers in a row: `7, 9, 12`.
pub fn row_of(numbers: impl Iterator<Item = u16>, f: &mut fmt::Formatter<'_>) -> fmt::Result {
    for (place, number) in numbers.enumerate() {
        let comma = if place > 0 { ", " } else { "" };
        write!(f, "{comma}{number}")?;
    }
    Ok(())
}

#[cfg(test)]
mod tests {
    use super::*;

    #[test]
    fn numbers_of_things() {
        assert_eq!(Many(0u16, "tick").to_string(), "0 ticks");
        assert_eq!(Many(1u64, "byte").to_string(), "1 byte");
        assert_eq!(Many(2u8, "pad").to_string(), "2 pads");
    }

    #[test]
    fn each_counter_has_its_letter() {
        let counters = Counters {
            accepted: 1,
            rejected: 2,
            dispatched: 3,
            protected: 4,
            unknown: 5,
            invalid: 6,
            faults: 65_535,
        };
        assert_eq!(Counts(counters).to_string(), "A1 R2 D3 P4 U5 I6 F65535");
    }
}
