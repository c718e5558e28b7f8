//! Why an answer came, in words: an arm for each outcome. The answer is the library's. Here it is only said what of the bytes, of
//! the configuration and of the states around the event that answer speaks of; nothing is judged again.

use super::event::{Came, Event, Since, OWN};
use super::words::{row_of, Many};
use std::fmt::{self, Formatter};
use tamezohishu::{Counters, FaultState, Outcome};

pub struct Why<'a>(pub &'a Event<'a>);

impl fmt::Display for Why<'_> {
    fn fmt(&self, f: &mut Formatter<'_>) -> fmt::Result {
        let event = self.0;
        let packet = event.packet();
        match event.answer.outcome {
            Outcome::Dispatched => dispatched(event, f),
            Outcome::Armed => armed(event, f),
            Outcome::Done => done(event, f),
            Outcome::Quiet => quiet(event, f),
            Outcome::Tick => tick(event, f),
            Outcome::Unarmed => write!(f, "armed {}, and its timeout is over", By(event)),
            Outcome::BadState | Outcome::NoRoom => f.write_str("nothing changes"),
            Outcome::Short => write!(f, "it has {}", bytes(packet.len())),
            Outcome::BadSize => match packet {
                [_, _, _, _, high, low, ..] => {
                    let said = 7 + u32::from(u16::from_be_bytes([*high, *low]));
                    let there = packet.len();
                    write!(f, "bytes 4 and 5 say {said} bytes, there are {there}")
                }
                _ => Ok(()),
            },
            Outcome::BadVersion => first(packet, f, "version", 5, 7),
            Outcome::BadType => first(packet, f, "type", 4, 1),
            Outcome::NoSecondary => first(packet, f, "secondary header flag", 3, 1),
            Outcome::BadXor => checksum(packet, f),
            Outcome::ShortData => {
                let (data, pads) = data(packet);
                write!(f, "{data} of data less {pads}: fewer than 4")
            }
            Outcome::TooLong => {
                let (data, pads) = data(packet);
                let arguments = data.0.saturating_sub(4 + pads.0);
                write!(f, "{data} of data less 4 and {pads}: {arguments}")
            }
            Outcome::Protected => write!(f, "unarmed {}", Since(event.past.arm)),
            Outcome::BadCount => count(event, f),
            Outcome::NoFault => {
                let_past_and(event, f)?;
                match event.named_fault() {
                    Some(fault) => write!(f, "there is no fault row {fault}"),
                    None => f.write_str("there is no such fault row"),
                }
            }
            Outcome::Unknown => {
                let base = event.configuration.own_base();
                let last = u32::from(base) + OWN.len() as u32 - 1;
                let id = event.answer.id;
                write!(f, "no route has {id}, and own ids are {base} to {last}")
            }
            Outcome::UnknownFault => match event.came {
                Came::Fault(fault) => write!(f, "there is no fault row {fault}"),
                _ => Ok(()),
            },
            Outcome::Other(_) => Ok(()),
        }
    }
}

fn bytes(many: usize) -> Many<u64> {
    Many(many as u64, "byte")
}

/// Which event armed the path, as it stood before this one.
struct By<'a>(&'a Event<'a>);

impl fmt::Display for By<'_> {
    fn fmt(&self, f: &mut Formatter<'_>) -> fmt::Result {
        match self.0.past.arm {
            Some(moment) => write!(f, "by event {}", moment.event),
            None => f.write_str("at loading"),
        }
    }
}

/// Says of a protected id that was not stopped what let it past, as the state before shows. Whether there was such.
fn let_past(event: &Event, f: &mut Formatter<'_>) -> Result<bool, fmt::Error> {
    if !(event.is_accepted() && event.is_protected() && event.before.is_armed()) {
        return Ok(false);
    }
    write!(f, "protected, armed {}", By(event))?;
    match event.before.ticks() {
        0 => f.write_str(" with no timeout")?,
        ticks => write!(f, ", {} left", Many(ticks, "tick"))?,
    }
    Ok(true)
}

/// The same before something else.
fn let_past_and(event: &Event, f: &mut Formatter<'_>) -> fmt::Result {
    match let_past(event, f)? {
        true => f.write_str("; "),
        false => Ok(()),
    }
}

fn dispatched(event: &Event, f: &mut Formatter<'_>) -> fmt::Result {
    let Came::Fault(fault) = event.came else {
        return match event.is_protected() {
            true => let_past(event, f).map(|_| ()),
            false => f.write_str("not protected"),
        };
    };
    let Some(row) = event.row(fault) else {
        return Ok(());
    };
    let (before, after) = (row.before, row.after);
    write!(f, "fault row {fault} was {before}")?;
    if before == after {
        f.write_str(" and stays so")?;
    } else {
        write!(f, " and is {after} now")?;
    }
    if event.is_protected() {
        f.write_str("; a response passes the protection")?;
    }
    Ok(())
}

fn armed(event: &Event, f: &mut Formatter<'_>) -> fmt::Result {
    match event.after.ticks() {
        0 => f.write_str("with no timeout")?,
        ticks => write!(f, "for {}", Many(ticks, "tick"))?,
    }
    if event.before.is_armed() {
        write!(f, "; armed before {}", By(event))?;
    }
    Ok(())
}

/// What an own command has done, as the states around it show.
fn done(event: &Event, f: &mut Formatter<'_>) -> fmt::Result {
    let_past_and(event, f)?;
    match event.own() {
        Some(1) if event.after.counters() == Counters::default() => {
            return f.write_str("every counter is zero");
        }
        Some(2 | 3) => return f.write_str("nothing to be done"),
        _ => {}
    }
    let mut moved = false;
    for state in FaultState::NAMED {
        let rows = event.rows().filter(|row| row.before != row.after);
        let now = rows.filter(|row| row.after == *state);
        let faults: Vec<u16> = now.map(|row| row.fault).collect();
        let between = if moved { "; " } else { "" };
        match faults.len() {
            0 => continue,
            1 => write!(f, "{between}fault row ")?,
            _ => write!(f, "{between}fault rows ")?,
        }
        moved = true;
        row_of(faults.into_iter(), f)?;
        write!(f, " now {state}")?;
    }
    let row = event.named_fault().and_then(|fault| event.row(fault));
    match row {
        _ if moved => Ok(()),
        Some(row) => write!(f, "fault row {} stays {}", row.fault, row.after),
        None => f.write_str("no fault row changes"),
    }
}

fn quiet(event: &Event, f: &mut Formatter<'_>) -> fmt::Result {
    let Came::Fault(fault) = event.came else {
        return Ok(());
    };
    match event.row(fault) {
        Some(row) => {
            let (state, since) = (row.before, Since(row.since));
            write!(f, "fault row {fault} is {state} {since}")
        }
        None => Ok(()),
    }
}

fn tick(event: &Event, f: &mut Formatter<'_>) -> fmt::Result {
    match event.before.is_armed() {
        true => write!(f, "armed {}", By(event)),
        false => write!(f, "unarmed {}", Since(event.past.arm)),
    }
}

/// A field of byte 0.
fn first(packet: &[u8], f: &mut Formatter<'_>, field: &str, shift: u8, mask: u8) -> fmt::Result {
    match packet {
        [byte, ..] => write!(f, "byte 0 is {byte:02X}: {field} {}", byte >> shift & mask),
        [] => Ok(()),
    }
}

fn checksum(packet: &[u8], f: &mut Formatter<'_>) -> fmt::Result {
    let xor = packet.iter().fold(0, |xor, byte| xor ^ byte);
    write!(f, "the XOR of all bytes is {xor:02X}")?;
    match packet.get(7) {
        Some(byte) => {
            let good = byte ^ xor;
            write!(f, "; byte 7 is {byte:02X}, and {good:02X} would make it 00")
        }
        None => Ok(()),
    }
}

/// The bytes of data and the pads of a packet.
fn data(packet: &[u8]) -> (Many<u64>, Many<u64>) {
    let pads = packet.get(6).map_or(0, |code| code & 0x7F);
    let data = packet.len().saturating_sub(6);
    (bytes(data), Many(pads.into(), "pad"))
}

fn count(event: &Event, f: &mut Formatter<'_>) -> fmt::Result {
    let_past_and(event, f)?;
    let there = event.arguments().len();
    match event.own().map(|which| OWN[which]) {
        // Words that do not fit the answer are better left out.
        Some((name, takes)) if takes != there => {
            let takes = Many(takes as u64, "argument byte");
            write!(f, "{name} takes {takes}, not {there}")
        }
        _ => write!(f, "it has {}", Many(there as u64, "argument byte")),
    }
}
