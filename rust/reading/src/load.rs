//! "Configuration image".

use crate::state::{
    good_basics, good_protected, good_route, good_row, Config, Run, MAX_ARGUMENTS, MAX_PROTECTED,
    MAX_ROUTES, MAX_ROWS,
};

/// What loading gives back.
#[derive(Clone, PartialEq, Eq, Debug)]
pub struct Loaded {
    pub answer: u8,
    pub offset: usize,
    pub config: Config,
    pub run: Run,
}

/// One record of a run of records, wherever it stands.
pub(crate) enum Record<'a> {
    /// "header or body passes the end"
    Cut,
    /// The kind, the body, and where the next record begins.
    Whole {
        kind: u16,
        body: &'a [u8],
        next: usize,
    },
}

/// "A run of records. Each begins with its body length, then its kind, two bytes
/// each, little-endian, as is everything in the body."
pub(crate) fn record(bytes: &[u8], offset: usize) -> Record<'_> {
    let body_start = match offset.checked_add(4) {
        Some(body_start) => body_start,
        None => return Record::Cut,
    };
    let header = match bytes.get(offset..body_start) {
        Some(header) => header,
        None => return Record::Cut,
    };
    let body_length = usize::from(le16(header, 0));
    let kind = le16(header, 2);
    let next = match body_start.checked_add(body_length) {
        Some(next) => next,
        None => return Record::Cut,
    };
    match bytes.get(body_start..next) {
        Some(body) => Record::Whole { kind, body, next },
        None => Record::Cut,
    }
}

/// Two bytes, little-endian; a byte that isn't there counts as zero (the callers
/// have checked the length).
pub(crate) fn le16(bytes: &[u8], at: usize) -> u16 {
    u16::from_le_bytes([le8(bytes, at), le8(bytes, at.saturating_add(1))])
}

fn le8(bytes: &[u8], at: usize) -> u8 {
    match bytes.get(at) {
        Some(byte) => *byte,
        None => 0,
    }
}

/// "3 | body length wrong for the kind, or n above 16" - here: right, n at most 16.
fn good_length(kind: u16, body: &[u8]) -> bool {
    match kind {
        // "1 basics | 6 bytes"
        1 => body.len() == 6,
        // "2 route | 3 bytes"
        2 => body.len() == 3,
        // "3 protected | 2 bytes"
        3 => body.len() == 2,
        // "4 fault row | 7+n bytes: fault id, response command id, start state,
        // latching, n (0 to 16), n argument bytes"
        4 => match body.get(6) {
            None => false,
            Some(n) => {
                let n = usize::from(*n);
                n <= MAX_ARGUMENTS && body.len() == n.saturating_add(7)
            }
        },
        _ => false,
    }
}

/// The checks 2 to 7 of one whole record (5 is no record's), and the record taken
/// into the tables when it passes. `last_kind` is the kind of the record before, 0
/// for the first record. Gives 0 or the refusal.
fn take(config: &mut Config, run: &mut Run, last_kind: u16, kind: u16, body: &[u8]) -> u8 {
    // "2 | kind not 1 to 4"
    if !(1..=4).contains(&kind) {
        return 2;
    }

    // "3 | body length wrong for the kind, or n above 16"
    if !good_length(kind, body) {
        return 3;
    }

    // "4 | first record not kind 1, a second kind 1, a kind that falls, an id not
    // above the one before"
    // "Exactly one kind 1, first; kinds never fall; ids rise strictly within kinds
    // 2, 3 and 4."
    if last_kind == 0 && kind != 1 {
        return 4;
    }
    if last_kind != 0 && kind == 1 {
        return 4;
    }
    if kind < last_kind {
        return 4;
    }
    // The first number of the bodies of kinds 2, 3 and 4 is their id.
    let id = le16(body, 0);
    let before: Option<u16> = match kind {
        2 => last_of(&config.routeids, config.nroutes),
        3 => last_of(&config.protected, config.nprotected),
        4 => last_of(&config.faultids, config.nrows),
        _ => None,
    };
    if let Some(before) = before {
        if id <= before {
            return 4;
        }
    }

    // "6 | one row more than the limit"
    // "At most 128 routes, 32 protected ids, 32 fault rows."
    let full = match kind {
        2 => config.nroutes >= MAX_ROUTES,
        3 => config.nprotected >= MAX_PROTECTED,
        4 => config.nrows >= MAX_ROWS,
        _ => false,
    };
    if full {
        return 6;
    }

    // "7 | any other rule of the table of kinds or of the paragraph under it broken"
    match kind {
        // "1 basics | 6 bytes: ground source, fault source, own base"
        1 => {
            let ground = le16(body, 0);
            let fault = le16(body, 2);
            let base = le16(body, 4);
            if !good_basics(ground, fault, base) {
                return 7;
            }
            config.ground = ground;
            config.fault = fault;
            config.base = base;
        }
        // "2 route | 3 bytes: command id, destination (one byte, 1 to 31)"
        2 => {
            let dest = le8(body, 2);
            if !good_route(config, id, dest) {
                return 7;
            }
            let k = config.nroutes;
            config.routeids[k] = id;
            config.dests[k] = dest;
            config.nroutes = k.saturating_add(1);
        }
        // "3 protected | 2 bytes: command id"
        3 => {
            if !good_protected(config, id) {
                return 7;
            }
            let k = config.nprotected;
            config.protected[k] = id;
            config.nprotected = k.saturating_add(1);
        }
        // "4 fault row | 7+n bytes: fault id, response command id, start state (0
        // disabled, 1 enabled), latching (0 or 1), n (0 to 16), n argument bytes"
        _ => {
            let response = le16(body, 2);
            let start = le8(body, 4);
            let latching = le8(body, 5);
            let n = le8(body, 6);
            if start > 1 {
                return 7;
            }
            if !good_row(config, response, latching) {
                return 7;
            }
            let k = config.nrows;
            config.faultids[k] = id;
            config.responses[k] = response;
            config.latching[k] = latching;
            config.argcounts[k] = n;
            let places = config.args.iter_mut().skip(k.saturating_mul(MAX_ARGUMENTS));
            for (place, byte) in places.zip(body.iter().skip(7)) {
                *place = *byte;
            }
            // "A good image gives ... the start states."
            run.states[k] = start;
            config.nrows = k.saturating_add(1);
        }
    }
    0
}

/// The last id of the used places of a table.
fn last_of(ids: &[u16], used: usize) -> Option<u16> {
    ids.iter().take(used).last().copied()
}

/// "Loading stops at the first bad record and returns the refusal and that record's
/// byte offset." "The state handed back on refusal is all zero, all tables empty".
fn refused(answer: u8, offset: usize) -> Loaded {
    Loaded {
        answer,
        offset,
        config: Config::zero(),
        run: Run::zero(),
    }
}

/// The reading of a configuration image.
pub fn load(image: &[u8]) -> Loaded {
    // "5 | empty image (offset 0)"
    if image.is_empty() {
        return refused(5, 0);
    }

    // "an unarmed state, zero counters"
    let mut config = Config::zero();
    let mut run = Run::zero();
    let mut last_kind: u16 = 0;
    let mut offset: usize = 0;
    while offset < image.len() {
        // "The checks of a record run in the order of the numbers."
        match record(image, offset) {
            // "1 | header or body passes the end of the image"
            Record::Cut => return refused(1, offset),
            Record::Whole { kind, body, next } => {
                let answer = take(&mut config, &mut run, last_kind, kind, body);
                if answer != 0 {
                    return refused(answer, offset);
                }
                last_kind = kind;
                offset = next;
            }
        }
    }

    // "A good image gives 0 and offset 0, an unarmed state, zero counters and the
    // start states."
    Loaded {
        answer: 0,
        offset: 0,
        config,
        run,
    }
}
