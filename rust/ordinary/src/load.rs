//! Loading of a configuration image.

use crate::config::{Config, Run, PROTECTED_IDS, ROUTES, ROWS, ROW_ARGS};
use crate::record;

/// The refusal of the first bad record, and where that begins.
#[derive(Clone, Copy, Debug, PartialEq, Eq)]
pub struct LoadError {
    pub refusal: u8,
    pub offset: usize,
}

const PAST_END: u8 = 1;
const BAD_KIND: u8 = 2;
const BAD_LENGTH: u8 = 3;
const BAD_ORDER: u8 = 4;
const EMPTY: u8 = 5;
const TOO_MANY: u8 = 6;
const BROKEN_RULE: u8 = 7;

pub fn load(image: &[u8]) -> Result<(Config, Run), LoadError> {
    if image.is_empty() {
        return Err(LoadError {
            refusal: EMPTY,
            offset: 0,
        });
    }
    let mut config = Config::EMPTY;
    let mut run = Run::START;
    let mut last_kind = 0;
    let mut offset = 0;
    while offset < image.len() {
        let refused = |refusal| LoadError { refusal, offset };
        let record = record::first(&image[offset..]).ok_or(refused(PAST_END))?;
        take(&mut config, &mut run, last_kind, record.kind, record.body).map_err(refused)?;
        last_kind = record.kind;
        offset += record.size;
    }
    Ok((config, run))
}

fn number(low: u8, high: u8) -> u16 {
    u16::from_le_bytes([low, high])
}

/// An id goes behind those of its table.
fn in_order(ids: &[u16], id: u16, most: usize) -> Result<(), u8> {
    if ids.last().is_some_and(|last| id <= *last) {
        return Err(BAD_ORDER);
    }
    if ids.len() == most {
        return Err(TOO_MANY);
    }
    Ok(())
}

fn rule(kept: bool) -> Result<(), u8> {
    if kept {
        Ok(())
    } else {
        Err(BROKEN_RULE)
    }
}

fn take(
    config: &mut Config,
    run: &mut Run,
    last_kind: u16,
    kind: u16,
    body: &[u8],
) -> Result<(), u8> {
    // The first record is of kind 1 and no other is; the kinds of the others do not fall.
    let ordered = if kind == 1 {
        last_kind == 0
    } else {
        last_kind != 0 && last_kind <= kind
    };
    let ordered = if ordered { Ok(()) } else { Err(BAD_ORDER) };
    match (kind, body) {
        (1, &[g0, g1, f0, f1, b0, b1]) => {
            ordered?;
            let (ground, fault, base) = (number(g0, g1), number(f0, f1), number(b0, b1));
            rule(ground != fault && base <= 65_528)?;
            (config.ground, config.fault, config.base) = (ground, fault, base);
        }
        (2, &[i0, i1, dest]) => {
            ordered?;
            let (id, n) = (number(i0, i1), config.nroutes);
            in_order(&config.route_ids[..n], id, ROUTES)?;
            rule((1..=31).contains(&dest) && config.own(id).is_none())?;
            config.route_ids[n] = id;
            config.dests[n] = dest;
            config.nroutes = n + 1;
        }
        (3, &[i0, i1]) => {
            ordered?;
            let (id, n) = (number(i0, i1), config.nprotected);
            in_order(&config.protected[..n], id, PROTECTED_IDS)?;
            rule(match config.own(id) {
                Some(which) => which != 0,
                None => config.route(id).is_some(),
            })?;
            config.protected[n] = id;
            config.nprotected = n + 1;
        }
        (4, &[f0, f1, r0, r1, start, latching, count, ref args @ ..])
            if args.len() == usize::from(count) && args.len() <= ROW_ARGS =>
        {
            ordered?;
            let (fault, n) = (number(f0, f1), config.nrows);
            let response = number(r0, r1);
            in_order(&config.fault_ids[..n], fault, ROWS)?;
            rule(start <= 1 && latching <= 1 && config.route(response).is_some())?;
            config.fault_ids[n] = fault;
            config.responses[n] = response;
            config.latching[n] = latching;
            config.arg_counts[n] = count;
            config.args[n][..args.len()].copy_from_slice(args);
            run.states[n] = start;
            config.nrows = n + 1;
        }
        (1..=4, _) => return Err(BAD_LENGTH),
        _ => return Err(BAD_KIND),
    }
    Ok(())
}
