//! The steps.

use crate::answer::{Answer, Outcome, ROOM};
use crate::config::{Config, Run};
use crate::packet::{judge, Command};
use crate::rules::keeps_rules;

const DISABLED: u8 = 0;
const ENABLED: u8 = 1;
const LATCHED: u8 = 2;

fn cleared(state: u8) -> u8 {
    if state == LATCHED {
        ENABLED
    } else {
        state
    }
}

/// The step of a packet, on any state.
pub fn step_packet(config: &Config, run: &mut Run, packet: &[u8], out: &mut [u8]) -> Answer {
    if !keeps_rules(config, run) {
        return Answer::bare(Outcome::BadState);
    }
    match out.first_chunk_mut() {
        Some(out) => inner::packet(config, run, packet, out),
        None => Answer::bare(Outcome::NoRoom),
    }
}

/// The step of a tick, on any state.
pub fn step_tick(config: &Config, run: &mut Run) -> Answer {
    if !keeps_rules(config, run) {
        return Answer::bare(Outcome::BadState);
    }
    inner::tick(run)
}

/// The step of a fault, on any state.
pub fn step_fault(config: &Config, run: &mut Run, fault: u16, out: &mut [u8]) -> Answer {
    if !keeps_rules(config, run) {
        return Answer::bare(Outcome::BadState);
    }
    match out.first_chunk_mut() {
        Some(out) => inner::fault(config, run, fault, out),
        None => Answer::bare(Outcome::NoRoom),
    }
}

/// Writes a command: source, id, argument count, arguments; there are at most 255 of these.
fn write(out: &mut [u8; ROOM], source: u16, id: u16, arguments: &[u8]) -> u16 {
    out[..2].copy_from_slice(&source.to_be_bytes());
    out[2..4].copy_from_slice(&id.to_be_bytes());
    out[4] = arguments.len() as u8;
    out[5..5 + arguments.len()].copy_from_slice(arguments);
    5 + arguments.len() as u16
}

/// The steps on a state that keeps its rules.
pub mod inner {
    use super::*;

    pub fn packet(config: &Config, run: &mut Run, packet: &[u8], out: &mut [u8; ROOM]) -> Answer {
        let command = match judge(packet) {
            Ok(command) => command,
            Err(refusal) => {
                run.rejected = run.rejected.wrapping_add(1);
                return Answer::bare(refusal);
            }
        };
        run.accepted = run.accepted.wrapping_add(1);
        let was_armed = run.armed;
        run.armed = false;
        run.ticks = 0;
        let id = command.id;
        if !was_armed && config.is_protected(id) {
            run.protected = run.protected.wrapping_add(1);
            return Answer::of(Outcome::Protected, id);
        }
        if let Some(which) = config.own(id) {
            let outcome = own(config, run, which, command);
            if matches!(outcome, Outcome::BadCount | Outcome::NoFault) {
                run.invalid = run.invalid.wrapping_add(1);
            }
            return Answer::of(outcome, id);
        }
        match config.route(id) {
            Some(dest) => {
                run.dispatched = run.dispatched.wrapping_add(1);
                let written = write(out, config.ground, id, command.arguments);
                Answer::dispatched(id, dest, written)
            }
            None => {
                run.unknown = run.unknown.wrapping_add(1);
                Answer::of(Outcome::Unknown, id)
            }
        }
    }

    fn own(config: &Config, run: &mut Run, which: u16, command: Command<'_>) -> Outcome {
        match (which, command.arguments) {
            (0, &[timeout]) => {
                run.armed = true;
                run.ticks = u16::from(timeout);
                return Outcome::Armed;
            }
            (1, []) => {
                let (armed, ticks, states) = (run.armed, run.ticks, run.states);
                *run = Run {
                    armed,
                    ticks,
                    states,
                    ..Run::START
                };
            }
            (2, []) | (3, [_, _, _, _]) => {}
            (4..=6, &[high, low]) => {
                let Some(row) = config.row(u16::from_be_bytes([high, low])) else {
                    return Outcome::NoFault;
                };
                let state = &mut run.states[row];
                *state = match which {
                    4 if *state == DISABLED => ENABLED,
                    4 => *state,
                    5 => DISABLED,
                    _ => cleared(*state),
                };
            }
            (7, []) => {
                for state in &mut run.states[..config.nrows] {
                    *state = cleared(*state);
                }
            }
            _ => return Outcome::BadCount,
        }
        Outcome::Done
    }

    pub fn tick(run: &mut Run) -> Answer {
        if run.armed && run.ticks != 0 {
            run.ticks -= 1;
            if run.ticks == 0 {
                run.armed = false;
                return Answer::bare(Outcome::Unarmed);
            }
        }
        Answer::bare(Outcome::Tick)
    }

    pub fn fault(config: &Config, run: &mut Run, fault: u16, out: &mut [u8; ROOM]) -> Answer {
        run.faults = run.faults.wrapping_add(1);
        let Some(row) = config.row(fault) else {
            return Answer::bare(Outcome::UnknownFault);
        };
        if run.states[row] != ENABLED {
            return Answer::bare(Outcome::Quiet);
        }
        // A response id is routed: the configuration was validated.
        let id = config.responses[row];
        let dest = config.route(id).unwrap_or(0);
        run.dispatched = run.dispatched.wrapping_add(1);
        run.states[row] = ENABLED + config.latching[row];
        let arguments = &config.args[row][..usize::from(config.arg_counts[row])];
        let written = write(out, config.fault, id, arguments);
        Answer::dispatched(id, dest, written)
    }
}
