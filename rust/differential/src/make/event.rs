//! Made-up events for a session under a configuration.

use super::packet;
use crate::dice::Dice;
use reading::Config;

#[derive(Clone, Debug)]
pub enum Event {
    Packet(Vec<u8>),
    Tick,
    Fault(u16),
}

impl Event {
    /// The event as a record of a recording.
    pub fn record(&self, recording: &mut Vec<u8>) {
        let (kind, body): (u16, &[u8]) = match self {
            Event::Packet(packet) => (16, packet),
            Event::Tick => (17, &[]),
            Event::Fault(fault) => (18, &fault.to_le_bytes()),
        };
        recording.extend_from_slice(&(body.len() as u16).to_le_bytes());
        recording.extend_from_slice(&kind.to_le_bytes());
        recording.extend_from_slice(body);
    }
}

/// One of the used places, or a made-up number where there are none.
fn used(dice: &mut Dice, ids: &[u16], n: usize) -> u16 {
    match n {
        0 => dice.two(),
        n => dice.one(&ids[..n]),
    }
}

fn fault_id(dice: &mut Dice, config: &Config) -> u16 {
    let known = used(dice, &config.faultids, config.nrows);
    let near = known.wrapping_add(1);
    let any = dice.two();
    dice.one(&[
        known,
        known,
        known,
        known,
        known,
        known,
        near,
        known.swap_bytes(),
        any,
    ])
}

/// The arguments of an own command: mostly right in number.
fn own_arguments(dice: &mut Dice, config: &Config, which: u16) -> Vec<u8> {
    if dice.percent(15) {
        let n = dice.below(7);
        return dice.bytes(n);
    }
    match which {
        0 => {
            let any = dice.byte();
            vec![dice.one(&[0, 1, 1, 2, 2, 3, 4, 255, any])]
        }
        3 => dice.bytes(4),
        4..=6 => fault_id(dice, config).to_be_bytes().to_vec(),
        _ => Vec::new(),
    }
}

/// A packet that is accepted.
pub fn accepted(dice: &mut Dice, config: &Config) -> Vec<u8> {
    let mut bytes = Vec::new();
    let (id, arguments) = match dice.below(100) {
        // Own ids. Arming often, so that protected commands get past; a reset now and then.
        0..=22 => (config.base, own_arguments(dice, config, 0)),
        23..=52 => {
            let which = dice.one(&[2, 3, 4, 4, 4, 5, 6, 6, 7, 1]);
            (
                config.base.wrapping_add(which),
                own_arguments(dice, config, which),
            )
        }
        // Protected ids: routed ones and own ones.
        53..=74 => {
            let id = used(dice, &config.protected, config.nprotected);
            let which = id.wrapping_sub(config.base);
            let arguments = match which {
                0..=7 => own_arguments(dice, config, which),
                _ => some(dice),
            };
            (id, arguments)
        }
        75..=91 => (used(dice, &config.routeids, config.nroutes), some(dice)),
        // Next to own ids, next to a route, anywhere.
        _ => {
            let routed = used(dice, &config.routeids, config.nroutes);
            let any = dice.two();
            let id = dice.one(&[
                config.base.wrapping_sub(1),
                config.base.wrapping_add(8),
                routed.wrapping_add(1),
                any,
            ]);
            (id, some(dice))
        }
    };
    let pads = dice.one(&[0, 0, 0, 1, 2, 127]);
    packet::well_formed(dice, &mut bytes, id, &arguments, pads);
    bytes
}

/// Arguments of a routed command: mostly few, now and then as many as can be.
fn some(dice: &mut Dice) -> Vec<u8> {
    let any = dice.below(256);
    let few = dice.below(6);
    let n = dice.one(&[few, few, few, few, any, 255]);
    dice.bytes(n)
}

/// Any event.
pub fn any(dice: &mut Dice, config: &Config) -> Event {
    match dice.below(100) {
        0..=47 => Event::Packet(accepted(dice, config)),
        48..=54 => {
            let mut bytes = Vec::new();
            loop {
                packet::any(dice, &mut bytes);
                // A record holds no more.
                if bytes.len() <= 65_535 {
                    break Event::Packet(bytes);
                }
            }
        }
        55..=76 => Event::Tick,
        _ => Event::Fault(fault_id(dice, config)),
    }
}
