//! Made-up images: good ones of every size, and good ones with one thing damaged.

use crate::dice::Dice;

/// What a good image says.
pub struct Plan {
    pub ground: u16,
    pub fault: u16,
    pub base: u16,
    pub routes: Vec<(u16, u8)>,
    pub protected: Vec<u16>,
    pub rows: Vec<Row>,
}

#[derive(Clone)]
pub struct Row {
    pub fault: u16,
    pub response: u16,
    pub start: u8,
    pub latching: u8,
    pub arguments: Vec<u8>,
}

/// How many rows a table gets: none, few, any number, or all.
fn rows(dice: &mut Dice, most: usize) -> usize {
    match dice.below(10) {
        0 => 0,
        1..=3 => dice.below(5).min(most),
        4..=7 => dice.below(most + 1),
        _ => most,
    }
}

/// So many numbers, rising, or fewer where two are the same: anywhere, close together, and the first and the last.
fn rising(dice: &mut Dice, n: usize, near: u16, mut keep: impl FnMut(u16) -> bool) -> Vec<u16> {
    let mut ids = Vec::new();
    for _ in 0..4 * n {
        if ids.len() == n {
            break;
        }
        let close = near.wrapping_add(dice.below(200) as u16).wrapping_sub(96);
        let any = dice.two();
        let id = dice.one(&[any, any, close, close, 0, 1, 0xFFFF, 0x00FF, 0x0100]);
        if keep(id) && !ids.contains(&id) {
            ids.push(id);
        }
    }
    ids.sort_unstable();
    ids
}

impl Plan {
    pub fn good(dice: &mut Dice) -> Plan {
        let ground = dice.two();
        let fault = dice.one(&[ground ^ 1, ground ^ 0x100, ground.wrapping_add(1), !ground]);
        let any = dice.two().min(65_528);
        let base = dice.one(&[any, any, 100, 0, 1, 7, 8, 65_520, 65_527, 65_528]);
        let n = rows(dice, 128);
        let ids = rising(dice, n, base, |id| id.wrapping_sub(base) > 7);
        let routes: Vec<(u16, u8)> = ids.iter().map(|id| (*id, dice.from(1, 31) as u8)).collect();

        // A protected id is routed or one of the seven own ones that are not the arm id.
        let mut candidates: Vec<u16> = ids.clone();
        candidates.extend(base + 1..=base + 7);
        let n = rows(dice, 32).min(candidates.len());
        let mut protected = Vec::new();
        while protected.len() < n {
            let k = dice.below(candidates.len());
            protected.push(candidates.swap_remove(k));
        }
        protected.sort_unstable();

        let n = if ids.is_empty() { 0 } else { rows(dice, 32) };
        let faults = rising(dice, n, 7, |_| true);
        let rows = faults.into_iter().map(|fault| {
            let any = dice.below(17);
            let n = dice.one(&[0, 1, 15, 16, any, any]);
            Row {
                fault,
                response: dice.one(&ids),
                start: dice.below(2) as u8,
                latching: dice.below(2) as u8,
                arguments: dice.bytes(n),
            }
        });
        let rows = rows.collect();
        Plan {
            ground,
            fault,
            base,
            routes,
            protected,
            rows,
        }
    }

    /// The records, one by one, in order.
    pub fn records(&self) -> Vec<Vec<u8>> {
        let mut records = vec![basics(self.ground, self.fault, self.base)];
        records.extend(self.routes.iter().map(|(id, dest)| route(*id, *dest)));
        records.extend(self.protected.iter().map(|id| record(3, &id.to_le_bytes())));
        records.extend(self.rows.iter().map(Row::record));
        records
    }

    pub fn image(&self) -> Vec<u8> {
        self.records().concat()
    }

    fn own(&self, id: u16) -> bool {
        id.wrapping_sub(self.base) <= 7
    }

    fn routed(&self, id: u16) -> bool {
        self.routes.iter().any(|(routed, _)| *routed == id)
    }
}

pub fn record(kind: u16, body: &[u8]) -> Vec<u8> {
    let mut bytes = (body.len() as u16).to_le_bytes().to_vec();
    bytes.extend_from_slice(&kind.to_le_bytes());
    bytes.extend_from_slice(body);
    bytes
}

fn basics(ground: u16, fault: u16, base: u16) -> Vec<u8> {
    let numbers = [ground, fault, base].map(u16::to_le_bytes);
    record(1, &numbers.concat())
}

fn route(id: u16, dest: u8) -> Vec<u8> {
    let [low, high] = id.to_le_bytes();
    record(2, &[low, high, dest])
}

impl Row {
    pub fn record(&self) -> Vec<u8> {
        let mut body = [self.fault, self.response].map(u16::to_le_bytes).concat();
        let n = self.arguments.len() as u8;
        body.extend_from_slice(&[self.start, self.latching, n]);
        body.extend_from_slice(&self.arguments);
        record(4, &body)
    }
}

/// Any image: noise, good, or good with one thing damaged.
pub fn any(dice: &mut Dice) -> Vec<u8> {
    match dice.below(100) {
        0 => Vec::new(),
        1 | 2 => {
            let n = dice.below(60);
            dice.bytes(n)
        }
        3..=20 => Plan::good(dice).image(),
        21..=60 => broken_rule(dice),
        _ => broken_records(dice),
    }
}

/// A plan with one of its rules broken, or at one of its limits.
fn broken_rule(dice: &mut Dice) -> Vec<u8> {
    let mut plan = Plan::good(dice);
    // Some rules are about a row, so there has to be one.
    if plan.routes.is_empty() {
        let id = plan.base.wrapping_add(50);
        plan.routes.push((id, 31));
    }
    if plan.rows.is_empty() {
        let response = plan.routes[0].0;
        plan.rows.push(Row {
            fault: dice.two(),
            response,
            start: 1,
            latching: 1,
            arguments: vec![1, 2, 3],
        });
    }
    let r = dice.below(plan.routes.len());
    let k = dice.below(plan.rows.len());
    match dice.below(16) {
        0 => plan.fault = plan.ground,
        1 => plan.base = dice.one(&[65_528, 65_529, 65_530, 65_535]),
        2 => plan.routes[r].1 = dice.one(&[0, 32, 33, 128, 255]),
        3 => plan.routes[r].1 = dice.one(&[1, 31]),
        // An own id among the routes, at its place in the order.
        4 => {
            let id = plan.base + dice.below(8) as u16;
            plan.routes.retain(|(other, _)| *other != id);
            plan.routes.truncate(127);
            plan.routes.push((id, 5));
            plan.routes.sort_unstable();
        }
        // The arm id, or an unrouted one, among the protected ids.
        5 | 6 => {
            let any = dice.two();
            let id = dice.one(&[plan.base, plan.base.wrapping_sub(1), any]);
            plan.protected.retain(|other| *other != id);
            plan.protected.truncate(31);
            plan.protected.push(id);
            plan.protected.sort_unstable();
        }
        7 => plan.rows[k].response = dice.two(),
        8 => plan.rows[k].response = plan.base + dice.below(8) as u16,
        9 => plan.rows[k].start = dice.one(&[2, 3, 128, 255]),
        10 => plan.rows[k].latching = dice.one(&[2, 3, 128, 255]),
        11 => plan.rows[k].arguments = dice.bytes(17),
        // One row too many, perhaps with another fault in it.
        12 => {
            while plan.routes.len() < 128 {
                let id = dice.two();
                if !plan.own(id) && !plan.routed(id) {
                    plan.routes.push((id, 7));
                }
            }
            plan.routes.sort_unstable();
            plan.routes.retain(|(id, _)| *id < 65_500);
            for id in 65_500.. {
                if plan.routes.len() >= 129 {
                    break;
                }
                if !plan.own(id) {
                    plan.routes.push((id, dice.one(&[1, 1, 0])));
                }
            }
            if dice.percent(20) {
                let id = plan.routes[127].0;
                plan.routes[128].0 = dice.one(&[id, 0]);
            }
        }
        13 => {
            let mut ids: Vec<u16> = plan.routes.iter().map(|(id, _)| *id).collect();
            ids.extend(plan.base + 1..=plan.base + 7);
            ids.extend((0..33).map(|_| dice.two()));
            ids.sort_unstable();
            ids.dedup();
            // Mostly the first 32 are known ones, so that the limit is met and not the rule.
            if dice.percent(80) {
                ids.retain(|id| plan.routed(*id) || (plan.own(*id) && *id != plan.base));
            }
            ids.truncate(33);
            if dice.percent(20) && ids.len() == 33 {
                ids[32] = dice.one(&[ids[31], ids[31] + 1, 0]);
            }
            plan.protected = ids;
        }
        14 => {
            let like = plan.rows[k].clone();
            let first = dice.two().min(65_000);
            let step = dice.from(1, 16) as u16;
            plan.rows = (0..33)
                .map(|n| Row {
                    fault: first + n * step,
                    ..like.clone()
                })
                .collect();
            match dice.below(4) {
                0 => plan.rows[32].response = plan.base,
                1 => plan.rows[32].fault = plan.rows[31].fault,
                _ => {}
            }
        }
        // Nothing: good, with at least one route and one row.
        _ => {}
    }
    plan.image()
}

/// Good records with one of them damaged, cut, moved, doubled or left out.
fn broken_records(dice: &mut Dice) -> Vec<u8> {
    let mut records = Plan::good(dice).records();
    let n = records.len();
    // The last records as often as any: what stands behind a refusal is never read.
    let anywhere = dice.below(n);
    let at = dice.one(&[anywhere, anywhere, n - 1]);
    match dice.below(14) {
        // Cut in the header, in the body, anywhere; bytes left over.
        0 => {
            records.truncate(at + 1);
            let keep = dice.from(1, 3);
            records[at].truncate(keep);
        }
        1 => {
            records.truncate(at + 1);
            let keep = dice.from(4, records[at].len() - 1);
            records[at].truncate(keep);
        }
        2 => {
            let image = records.concat();
            let keep = dice.below(image.len());
            return image[..keep].to_vec();
        }
        3 => {
            let left = dice.from(1, 4);
            records.push(dice.bytes(left));
        }
        // Another kind: none there is, or another one.
        4 => {
            let kind: u16 = dice.one(&[0, 5, 16, 0x0101, 0x0200, 0x0104, 0xFFFF]);
            records[at][2..4].copy_from_slice(&kind.to_le_bytes());
        }
        5 => {
            let kind = dice.from(1, 4) as u16;
            records[at][2..4].copy_from_slice(&kind.to_le_bytes());
        }
        // Another length: with the body as it is, or with a body that has it.
        6 => {
            let length = dice.one(&[0, 1, 2, 3, 6, 7, 8, 23, 24, 255, 256, 0xFFFF_u16]);
            records[at][..2].copy_from_slice(&length.to_le_bytes());
        }
        7 => {
            let kind = u16::from(records[at][2]);
            // Lengths whose low byte is right for a kind, too.
            let any = dice.below(26);
            let length = dice.one(&[any, any, any, any, any, 256 + any, 65_280 + any, 65_535]);
            let mut body = dice.bytes(length);
            if kind == 4 && length > 6 {
                // n right, or wrong by one, or above 16 with the body to it.
                let right = (length - 7) as u8;
                let (less, more) = (right.wrapping_sub(1), right.wrapping_add(1));
                body[6] = dice.one(&[right, right, less, more]);
            }
            records[at] = record(kind, &body);
        }
        // Order: neighbours swapped, a record doubled, moved, a second kind 1, the first left out.
        8 => {
            if n > 1 {
                let at = at.min(n - 2);
                records.swap(at, at + 1);
            }
        }
        9 => {
            let double = records[at].clone();
            records.insert(at, double);
        }
        10 => {
            let moved = records.remove(at);
            let to = dice.below(n);
            records.insert(to, moved);
        }
        11 => {
            let mut second = records[0].clone();
            second[4] ^= dice.one(&[0, 1]);
            let to = dice.from(0, n);
            records.insert(to, second);
        }
        12 => {
            records.remove(dice.one(&[0, at]));
        }
        // A few bytes anywhere.
        _ => {
            for _ in 0..dice.from(1, 3) {
                let at = dice.below(n);
                let byte = dice.below(records[at].len());
                records[at][byte] = dice.byte();
            }
        }
    }
    records.concat()
}
