//! Made-up states: good ones, and good ones damaged in one place.

use crate::dice::Dice;
use reading::{Config, Run};

/// A run that keeps the rules under a configuration.
pub fn good_run(dice: &mut Dice, config: &Config) -> Run {
    let mut run = Run::zero();
    run.armed = dice.percent(50);
    if run.armed {
        let any = u16::from(dice.byte());
        run.ticks = dice.one(&[0, 1, 2, 255, any]);
    }
    for count in &mut run.counts {
        let any = dice.two();
        *count = dice.one(&[0, any, 65_535, 65_534]);
    }
    for k in 0..config.nrows {
        run.states[k] = dice.below(2 + usize::from(config.latching[k])) as u8;
    }
    run
}

/// A place from `from` up to the one before `to`, if there is any: the first, the last or any.
fn place(dice: &mut Dice, from: usize, to: usize) -> Option<usize> {
    if from >= to {
        return None;
    }
    let any = dice.from(from, to - 1);
    Some(dice.one(&[from, to - 1, any]))
}

/// Damages a good state in one place, by one of the ways of answer 20. `armed` is the byte at the boundary. A way that has no
/// place in this state leaves it good, and some of the ways only may break it: the reading says which do.
pub fn damage(dice: &mut Dice, config: &mut Config, run: &mut Run, armed: &mut u8) {
    let nonzero = dice.from(1, 255) as u8;
    let nonzero_two = dice.from(1, 65_535) as u16;
    let (nroutes, nprotected, nrows) = (config.nroutes, config.nprotected, config.nrows);
    match dice.below(36) {
        0 => *armed = dice.from(2, 255) as u8,
        // Counts: beyond the limit, one less, one more.
        1 => config.nroutes = dice.one(&[129, 130, 255, 256, 65_536, usize::MAX, 1 << 63]),
        2 => config.nprotected = dice.one(&[33, 34, 128, 256, 1 << 32, usize::MAX]),
        3 => config.nrows = dice.one(&[33, 34, 128, 256, 1 << 32, usize::MAX]),
        4 => config.nroutes = nroutes.saturating_sub(1),
        5 => config.nprotected = nprotected.saturating_sub(1),
        6 => config.nrows = nrows.saturating_sub(1),
        7 => match dice.below(3) {
            0 => config.nroutes += 1,
            1 => config.nprotected += 1,
            _ => config.nrows += 1,
        },
        // Unused places that are not zero.
        8 => {
            if let Some(k) = place(dice, nroutes, 128) {
                config.routeids[k] = nonzero_two;
            }
        }
        9 => {
            if let Some(k) = place(dice, nroutes, 128) {
                config.dests[k] = nonzero;
            }
        }
        10 => {
            if let Some(k) = place(dice, nprotected, 32) {
                config.protected[k] = nonzero_two;
            }
        }
        11 => {
            if let Some(k) = place(dice, nrows, 32) {
                config.faultids[k] = nonzero_two;
            }
        }
        12 => {
            if let Some(k) = place(dice, nrows, 32) {
                config.responses[k] = nonzero_two;
            }
        }
        13 => {
            if let Some(k) = place(dice, nrows, 32) {
                config.latching[k] = dice.one(&[1, nonzero]);
            }
        }
        14 => {
            if let Some(k) = place(dice, nrows, 32) {
                config.argcounts[k] = dice.one(&[1, 16, nonzero]);
            }
        }
        15 => {
            if let Some(k) = place(dice, nrows * 16, 512) {
                config.args[k] = nonzero;
            }
        }
        16 => {
            if let Some(k) = place(dice, nrows, 32) {
                run.states[k] = dice.one(&[1, 2, nonzero]);
            }
        }
        // An argument byte behind those in use.
        17 => {
            if let Some(k) = place(dice, 0, nrows) {
                let from = k * 16 + usize::from(config.argcounts[k]);
                if let Some(at) = place(dice, from, k * 16 + 16) {
                    config.args[at] = nonzero;
                }
            }
        }
        // One argument fewer, or more, than the bytes say; too many.
        18 => {
            if let Some(k) = place(dice, 0, nrows) {
                let n = config.argcounts[k];
                config.argcounts[k] = dice.one(&[n.saturating_sub(1), n + 1, 17, 18, 32, 255]);
            }
        }
        // The arm record.
        19 => run.ticks = dice.one(&[255, 256, 257, 512, 32_768, 65_535]),
        20 => {
            run.armed = false;
            *armed = 0;
            run.ticks = dice.one(&[1, 2, 255, 256]);
        }
        // Fault states.
        21 => {
            if let Some(k) = place(dice, 0, nrows) {
                run.states[k] = dice.one(&[3, 4, 128, 255]);
            }
        }
        22 => {
            if let Some(k) = place(dice, 0, nrows) {
                config.latching[k] = 0;
                run.states[k] = 2;
            }
        }
        23 => {
            if let Some(k) = place(dice, 0, nrows) {
                config.latching[k] = dice.one(&[2, 3, 255]);
            }
        }
        // The rules of the records.
        24 => config.fault = config.ground,
        25 => config.base = dice.one(&[65_528, 65_529, 65_530, 65_535]),
        26 => {
            if let Some(k) = place(dice, 0, nroutes) {
                config.dests[k] = dice.one(&[0, 32, 33, 255]);
            }
        }
        27 => {
            if let Some(k) = place(dice, 0, nroutes) {
                config.base = config.routeids[k].saturating_sub(dice.below(9) as u16);
            }
        }
        28 => {
            if let Some(k) = place(dice, 0, nprotected) {
                config.base = config.protected[k];
            }
        }
        29 => {
            if let Some(k) = place(dice, 0, nprotected) {
                config.protected[k] ^= dice.one(&[1, 2, 0x100, 0x8000]);
            }
        }
        30 => {
            if let Some(k) = place(dice, 0, nrows) {
                config.responses[k] ^= dice.one(&[1, 2, 0x100, 0x8000]);
            }
        }
        31 => order(dice, &mut config.routeids, nroutes),
        32 => order(dice, &mut config.protected, nprotected),
        33 => order(dice, &mut config.faultids, nrows),
        // A route taken out from under the tables that rest on it.
        34 => {
            if let Some(k) = place(dice, 0, nroutes) {
                config.routeids[k] ^= 1;
            }
        }
        // Nothing: a good state.
        _ => {}
    }
}

/// Two neighbours equal, or swapped.
fn order(dice: &mut Dice, ids: &mut [u16], n: usize) {
    if let Some(k) = place(dice, 1, n) {
        if dice.percent(50) {
            ids[k] = ids[k - 1];
        } else {
            ids.swap(k - 1, k);
        }
    }
}
