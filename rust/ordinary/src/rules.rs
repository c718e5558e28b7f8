//! Whether a state from anywhere keeps its rules (answer 20).

use crate::config::{Config, Run, PROTECTED_IDS, ROUTES, ROWS};

// Folds and not `all`: the compiler makes them wide, and there is nothing to gain from stopping early in a state that is good.

fn rising(ids: &[u16]) -> bool {
    let pairs = ids.iter().zip(ids.iter().skip(1));
    pairs.fold(true, |good, (before, id)| good & (before < id))
}

fn zero_16(places: &[u16]) -> bool {
    places.iter().fold(0, |sum, place| sum | place) == 0
}

fn zero_8(places: &[u8]) -> bool {
    places.iter().fold(0, |sum, place| sum | place) == 0
}

pub fn keeps_rules(config: &Config, run: &Run) -> bool {
    // Counts first: everything below rests on them.
    if config.nroutes > ROUTES || config.nprotected > PROTECTED_IDS || config.nrows > ROWS {
        return false;
    }
    routes(config) && protected(config) && rows(config, run) && arm(run)
}

fn arm(run: &Run) -> bool {
    run.ticks <= 255 && (run.armed || run.ticks == 0)
}

fn routes(config: &Config) -> bool {
    let (ids, unused) = config.route_ids.split_at(config.nroutes);
    let (dests, unused_dests) = config.dests.split_at(config.nroutes);
    if config.ground == config.fault || config.base > 65_528 || !rising(ids) {
        return false;
    }
    // Ids rise, so the first one from the own base on is the only one to ask.
    let behind = ids.partition_point(|id| *id < config.base);
    if ids.get(behind).is_some_and(|id| config.own(*id).is_some()) {
        return false;
    }
    let good_dests = dests
        .iter()
        .fold(true, |good, dest| good & (1..=31).contains(dest));
    good_dests && zero_16(unused) && zero_8(unused_dests)
}

fn protected(config: &Config) -> bool {
    let (ids, unused) = config.protected.split_at(config.nprotected);
    let known = |id: &u16| match config.own(*id) {
        Some(which) => which != 0,
        None => config.route(*id).is_some(),
    };
    rising(ids) && ids.iter().all(known) && zero_16(unused)
}

fn rows(config: &Config, run: &Run) -> bool {
    let n = config.nrows;
    if !rising(&config.fault_ids[..n]) {
        return false;
    }
    for k in 0..n {
        let count = config.arg_counts[k];
        let good = config.latching[k] <= 1
            && run.states[k] <= 1 + config.latching[k]
            && count <= 16
            && config.route(config.responses[k]).is_some();
        // A row's sixteen argument bytes as one number: those past the count are its high ones.
        let bytes = u128::from_le_bytes(config.args[k]);
        if !good || (count < 16 && bytes >> (8 * u32::from(count)) != 0) {
            return false;
        }
    }
    zero_16(&config.fault_ids[n..])
        && zero_16(&config.responses[n..])
        && zero_8(&config.latching[n..])
        && zero_8(&config.arg_counts[n..])
        && zero_8(config.args[n..].as_flattened())
        && zero_8(&run.states[n..])
}
