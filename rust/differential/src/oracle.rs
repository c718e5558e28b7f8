//! The replay of a recording, by the reading's steps. Document 01 has the records (of the step program) and the steps; what
//! stands in the output and where a replay stops is the C header's.

use reading::{step_fault, step_packet, step_tick, Config, Run};
use tamezohishu::{REPLY_ROOM, ROOM};

/// What is to come back for a piece of a recording.
#[derive(PartialEq, Eq, Debug)]
pub struct Expected {
    pub stop: u8,
    pub read: usize,
    pub count: usize,
    /// What is to stand in the output, from its start; later bytes stay.
    pub written: Vec<u8>,
}

enum Event<'a> {
    Packet(&'a [u8]),
    Tick,
    Fault(u16),
}

/// Why a replay stops, by the header's numbers.
const CUT: u8 = 60;
const OTHER_KIND: u8 = 61;
const WRONG_LENGTH: u8 = 62;
const OUTPUT_FULL: u8 = 63;

/// The first record of some bytes, as event and size, or why it stops the replay.
fn event(bytes: &[u8]) -> Result<(Event<'_>, usize), u8> {
    let (header, rest) = bytes.split_first_chunk::<4>().ok_or(CUT)?;
    let length = usize::from(u16::from_le_bytes([header[0], header[1]]));
    let body = rest.get(..length).ok_or(CUT)?;
    let event = match (u16::from_le_bytes([header[2], header[3]]), body) {
        (16, packet) => Event::Packet(packet),
        (17, []) => Event::Tick,
        (18, [low, high]) => Event::Fault(u16::from_le_bytes([*low, *high])),
        (17 | 18, _) => return Err(WRONG_LENGTH),
        _ => return Err(OTHER_KIND),
    };
    Ok((event, 4 + length))
}

/// A piece of a recording on a state, with so much output room.
pub fn resume(config: &Config, run: &mut Run, recording: &[u8], room: usize) -> Expected {
    let mut expected = Expected {
        stop: 0,
        read: 0,
        count: 0,
        written: Vec::new(),
    };
    if !reading::keeps_rules(config, run) {
        expected.stop = 20;
        return expected;
    }
    while expected.read < recording.len() {
        let (event, size) = match event(&recording[expected.read..]) {
            Ok(found) => found,
            Err(stop) => {
                expected.stop = stop;
                break;
            }
        };
        if room - expected.written.len() < REPLY_ROOM {
            expected.stop = OUTPUT_FULL;
            break;
        }
        let mut out = [0; ROOM];
        let answer = match event {
            Event::Packet(packet) => step_packet(config, run, packet, &mut out),
            Event::Tick => step_tick(config, run),
            Event::Fault(fault) => step_fault(config, run, fault, &mut out),
        };
        let reply = &mut expected.written;
        reply.push(answer.answer);
        reply.extend_from_slice(&answer.id.to_le_bytes());
        reply.push(answer.dest);
        reply.extend_from_slice(&answer.written.to_le_bytes());
        reply.extend_from_slice(&out[..usize::from(answer.written)]);
        expected.read += size;
        expected.count += 1;
    }
    expected
}
