//! "Steps and what they return", "Arming" and "Own commands".

use crate::judge::{arguments, judge};
use crate::state::{keeps_rules, Config, Run, A, D, F, I, P, R, U};

/// "An answer has four numbers: answer, command id, destination, bytes written."
#[derive(Clone, Copy, PartialEq, Eq, Debug)]
pub struct Answer {
    pub answer: u8,
    pub id: u16,
    pub dest: u8,
    pub written: u16,
}

/// "The id is set for 10, 11, 12 and 30 to 33, else 0. Destination and bytes written
/// are set for 10 only, else 0." - the answers with no other number.
fn bare(answer: u8) -> Answer {
    Answer {
        answer,
        id: 0,
        dest: 0,
        written: 0,
    }
}

/// The same sentence: 11, 12 and 30 to 33.
fn with_id(answer: u8, id: u16) -> Answer {
    Answer {
        answer,
        id,
        dest: 0,
        written: 0,
    }
}

/// "a fault state (0 disabled, 1 enabled, 2 latched)"
const DISABLED: u8 = 0;
const ENABLED: u8 = 1;
const LATCHED: u8 = 2;

/// The column "enable": disabled to enabled, enabled to enabled, latched to latched.
fn enabled_by(state: u8) -> u8 {
    if state == DISABLED {
        ENABLED
    } else {
        state
    }
}

/// The column "disable": every state to disabled.
fn disabled_by(_state: u8) -> u8 {
    DISABLED
}

/// The column "clear": disabled to disabled, enabled to enabled, latched to enabled.
/// "here a disabled row stays disabled until it is enabled"
fn cleared_by(state: u8) -> u8 {
    if state == LATCHED {
        ENABLED
    } else {
        state
    }
}

/// The column "fault": disabled stays (13), enabled becomes latched (10), latched
/// stays (13). "A row that doesn't latch stays enabled after a fault and is never
/// latched."
fn faulted_by(state: u8, latches: bool) -> u8 {
    if state == ENABLED && latches {
        LATCHED
    } else {
        state
    }
}

/// "source, command id (big-endian, two bytes each), argument count (one byte),
/// arguments, 5 + count bytes; later bytes stay." Gives the bytes written. The
/// callers have seen 260 bytes of room and have at most 255 arguments.
fn write(out: &mut [u8], source: u16, id: u16, args: &[u8]) -> u16 {
    let count: u8 = args.len().min(255) as u8;
    let mut bytes: Vec<u8> = Vec::new();
    bytes.extend_from_slice(&source.to_be_bytes());
    bytes.extend_from_slice(&id.to_be_bytes());
    bytes.push(count);
    bytes.extend(args.iter().take(usize::from(count)));
    for (place, byte) in out.iter_mut().zip(bytes.iter()) {
        *place = *byte;
    }
    u16::from(count).saturating_add(5)
}

/// The step of a telecommand packet.
pub fn step_packet(config: &Config, run: &mut Run, packet: &[u8], out: &mut [u8]) -> Answer {
    // "Order for a packet: 20 to 29 as numbered, then 30, then 31 and 32 for an own
    // id, then 33."

    // "20 | state breaks its rules | none"
    // "Answers 20 and 21 change nothing at all."
    if !keeps_rules(config, run) {
        return bare(20);
    }

    // "21 | output room below 260 bytes | none"
    if out.len() < 260 {
        return bare(21);
    }

    // "A packet that gets 22 to 29 is rejected"; the counter of each is R.
    // "A rejected packet and a fault leave it [the arm record]."
    let judged = judge(packet);
    if judged.answer != 0 {
        run.count(R);
        return bare(judged.answer);
    }

    // "one that gets none of 20 to 29 is accepted"; every answer of an accepted
    // packet counts A.
    run.count(A);
    let id = judged.id;
    // "The argument bytes start at byte 10 and are handed on as that part of the
    // packet"
    let (offset, length) = arguments(packet);
    let args: &[u8] = match packet.get(offset..offset.saturating_add(length)) {
        Some(args) => args,
        None => &[],
    };

    // "Every other accepted packet unarms, whatever its answer, a malformed arm
    // included." Only the well-formed arm, further down, arms again; what the
    // protection looks at is how the packet found the record. An unarmed record has
    // no ticks remaining.
    let was_armed = run.armed;
    run.armed = false;
    run.ticks = 0;

    // "30 | protected and unarmed | A, P"
    if config.is_protected(id) && !was_armed {
        run.count(P);
        return with_id(30, id);
    }

    // "then 31 and 32 for an own id"
    if let Some(which) = config.own(id) {
        return own_command(config, run, which, id, args);
    }

    match config.route(id) {
        // "33 | id neither own nor routed | A, U"
        None => {
            run.count(U);
            with_id(33, id)
        }
        // "10 | command dispatched | D, and A or F"
        Some(dest) => {
            run.count(D);
            let written = write(out, config.ground, id, args);
            Answer {
                answer: 10,
                id,
                dest,
                written,
            }
        }
    }
}

/// "Own commands". The packet is accepted, counted A, and has unarmed already.
fn own_command(config: &Config, run: &mut Run, which: u16, id: u16, args: &[u8]) -> Answer {
    // "The id less own base selects: 0 arm (1 byte, timeout), 1 reset counters (0),
    // 2 no-op (0), 3 no-op with argument (4), 4 enable a fault response (2, fault
    // id), 5 disable (2), 6 clear (2), 7 clear all (0). In brackets: the argument
    // bytes."
    let needed: usize = match which {
        0 => 1,
        1 => 0,
        2 => 0,
        3 => 4,
        4 => 2,
        5 => 2,
        6 => 2,
        _ => 0,
    };

    // "31 | own command, wrong argument count | A, I"
    if args.len() != needed {
        run.count(I);
        return with_id(31, id);
    }

    match which {
        // "A well-formed arm command arms and sets the ticks to its timeout, also
        // when already armed."
        0 => {
            let timeout: u8 = match args.first() {
                Some(timeout) => *timeout,
                None => 0,
            };
            run.armed = true;
            run.ticks = u16::from(timeout);
            // "11 | arm taken | A"
            return with_id(11, id);
        }
        // "A reset leaves all seven counters A, R, D, P, U, I, F at zero, its own
        // count included."
        1 => run.counts = [0; 7],
        // "2 no-op (0), 3 no-op with argument (4)"
        2 | 3 => {}
        // "4 enable a fault response (2, fault id), 5 disable (2), 6 clear (2)"
        4 | 5 | 6 => {
            // "Numbers in packets are big-endian."
            let fault: u16 = match args {
                [high, low] => u16::from_be_bytes([*high, *low]),
                _ => 0,
            };
            let state = match config.row(fault) {
                Some(k) => run.states.get_mut(k),
                None => None,
            };
            match state {
                // "32 | own command, fault id not in the table | A, I"
                None => {
                    run.count(I);
                    return with_id(32, id);
                }
                Some(state) => {
                    *state = match which {
                        4 => enabled_by(*state),
                        5 => disabled_by(*state),
                        _ => cleared_by(*state),
                    };
                }
            }
        }
        // "7 clear all (0)": "Clear all clears each row."
        _ => {
            for state in run.states.iter_mut().take(config.nrows) {
                *state = cleared_by(*state);
            }
        }
    }

    // "12 | own command done | A"
    with_id(12, id)
}

/// The step of a clock tick.
pub fn step_tick(config: &Config, run: &mut Run) -> Answer {
    // "A tick can meet only 20."
    if !keeps_rules(config, run) {
        return bare(20);
    }

    // "A tick takes one from a nonzero remainder while armed; reaching zero unarms
    // (15). Timeout 0 lasts until an accepted packet."
    if run.armed && run.ticks != 0 {
        run.ticks = run.ticks.saturating_sub(1);
        if run.ticks == 0 {
            run.armed = false;
            return bare(15);
        }
    }

    // "14 / 15 | tick / tick that ended the armed state | none"
    bare(14)
}

/// The step of a fault number.
pub fn step_fault(config: &Config, run: &mut Run, fault: u16, out: &mut [u8]) -> Answer {
    // "For a fault: 20, 21, 34, 13, 10."
    // "Answers 20 and 21 change nothing at all."
    if !keeps_rules(config, run) {
        return bare(20);
    }
    if out.len() < 260 {
        return bare(21);
    }

    // Every answer of a fault past these counts F.
    run.count(F);

    // "34 | fault id not in the table | F"
    let k = match config.row(fault) {
        Some(k) => k,
        None => return bare(34),
    };

    // "13 | fault known, its response disabled or latched | F"
    let state = run.states[k];
    if state != ENABLED {
        return bare(13);
    }

    // "10 | command dispatched | D, and A or F"
    // "Fault responses go straight to the router, as document 001 allows, even for a
    // protected id; their source number shows it."
    run.count(D);
    run.states[k] = faulted_by(state, config.latching[k] == 1);
    let id = config.responses[k];
    // "a response id is routed" (the rules are kept here).
    let dest: u8 = match config.route(id) {
        Some(dest) => dest,
        None => 0,
    };
    let places = config.places(k);
    let args: &[u8] = match places.get(..usize::from(config.argcounts[k])) {
        Some(args) => args,
        None => places,
    };
    let written = write(out, config.fault, id, args);
    Answer {
        answer: 10,
        id,
        dest,
        written,
    }
}
