//! The kinds of records, an entry each: how a line says one, and in words the rules it may break. Whatever goes by kinds goes
//! over this table. What is good and what is not the library decides; the rules stand here to explain a refusal, nothing else.

use super::records::{records, two, Record};
use tamezohishu::{PROTECTED_IDS, ROUTES, ROWS};
use Part::{Bytes, Either, Flag, Named, One, Two, Word};

/// A part of a line, and what it is in the record's body.
pub enum Part {
    /// A number, under this name in messages: two bytes.
    Two(&'static str),
    /// A number, under this name in messages: one byte.
    One(&'static str),
    /// A number behind this name and `=`: two bytes.
    Named(&'static str),
    /// This word, for the eye alone: no byte.
    Word(&'static str),
    /// The first word for 0, the second for 1: one byte.
    Either(&'static str, &'static str),
    /// This word for 1, left out for 0: one byte.
    Flag(&'static str),
    /// This word and bytes behind it, or nothing: their number in one byte, and they. It is the last part.
    Bytes(&'static str),
}

/// A kind of records.
pub struct Form {
    pub kind: u16,
    /// The first word of its lines.
    pub word: &'static str,
    /// One of it, as messages say it.
    pub name: &'static str,
    /// What follows the first word.
    pub parts: &'static [Part],
    /// None where there may be one record of the kind at most.
    pub rows: Option<Rows>,
    /// Which rule of refusal 7 a body of the right length breaks, in words.
    pub broken: fn(&[u8], &Before) -> Option<String>,
}

/// A kind of which there may be many. Their bodies begin with an id, and the ids rise.
pub struct Rows {
    /// The id as messages say it.
    pub id: &'static str,
    pub most: usize,
}

/// The kinds, in their order in an image.
pub const FORMS: &[Form] = &[
    Form {
        kind: 1,
        word: "basics",
        name: "a basics record",
        parts: &[Named("ground"), Named("fault"), Named("own")],
        rows: None,
        broken: basics,
    },
    Form {
        kind: 2,
        word: "route",
        name: "a route",
        parts: &[Two("COMMAND"), Word("to"), One("DESTINATION")],
        rows: Some(Rows {
            id: "route id",
            most: ROUTES,
        }),
        broken: route,
    },
    Form {
        kind: 3,
        word: "protect",
        name: "a protected id",
        parts: &[Two("COMMAND")],
        rows: Some(Rows {
            id: "protected id",
            most: PROTECTED_IDS,
        }),
        broken: protected,
    },
    Form {
        kind: 4,
        word: "fault",
        name: "a fault row",
        parts: &[
            Two("FAULT"),
            Word("send"),
            Two("COMMAND"),
            Either("disabled", "enabled"),
            Flag("latching"),
            Bytes("args"),
        ],
        rows: Some(Rows {
            id: "fault id",
            most: ROWS,
        }),
        broken: fault,
    },
];

/// The entry of a kind.
pub fn form(kind: u16) -> Option<&'static Form> {
    FORMS.iter().find(|form| form.kind == kind)
}

/// The last of the eight own ids, less the first.
const LAST_OWN: u16 = 7;

fn basics(body: &[u8], _: &Before) -> Option<String> {
    let (ground, fault, own) = (two(body, 0)?, two(body, 2)?, two(body, 4)?);
    if ground == fault {
        return Some(format!("ground and fault are both {ground}"));
    }
    let most = u16::MAX - LAST_OWN;
    (own > most).then(|| format!("own {own}: own is at most {most}"))
}

fn route(body: &[u8], before: &Before) -> Option<String> {
    let (id, destination) = (two(body, 0)?, *body.get(2)?);
    if !(1..=31).contains(&destination) {
        let told = format!("destination {destination}: destinations are 1 to 31");
        return Some(told);
    }
    let own = before.own()?;
    let last = own.saturating_add(LAST_OWN);
    before
        .is_own(id)
        .then(|| format!("route id {id} is an own id: these are {own} to {last}"))
}

fn protected(body: &[u8], before: &Before) -> Option<String> {
    let id = two(body, 0)?;
    if before.own() == Some(id) {
        return Some(format!("protected id {id} is the arm id"));
    }
    let known = before.is_own(id) || before.is_routed(id);
    (!known).then(|| format!("protected id {id} is neither routed nor own"))
}

fn fault(body: &[u8], before: &Before) -> Option<String> {
    let (response, start, latching) = (two(body, 2)?, *body.get(4)?, *body.get(5)?);
    if start > 1 {
        return Some(format!("start state {start}: 0 is disabled, 1 enabled"));
    }
    if latching > 1 {
        return Some(format!("latching {latching}: 0 is no, 1 yes"));
    }
    (!before.is_routed(response)).then(|| format!("command {response} is not routed"))
}

/// The records that stand before a refused one: they were taken.
pub struct Before<'a>(Vec<Record<'a>>);

impl<'a> Before<'a> {
    pub fn new(image: &'a [u8], offset: usize) -> Before<'a> {
        let before = records(image).take_while(|record| record.offset < offset);
        Before(before.collect())
    }

    pub fn last(&self) -> Option<&Record<'a>> {
        self.0.last()
    }

    fn of(&self, kind: u16) -> impl Iterator<Item = &Record<'a>> {
        self.0.iter().filter(move |record| record.kind == kind)
    }

    /// How many there are of a kind.
    pub fn number_of(&self, kind: u16) -> usize {
        self.of(kind).count()
    }

    /// The first of the own ids.
    fn own(&self) -> Option<u16> {
        self.of(1).next().and_then(|basics| two(basics.body, 4))
    }

    fn is_own(&self, id: u16) -> bool {
        self.own()
            .and_then(|own| id.checked_sub(own))
            .is_some_and(|place| place <= LAST_OWN)
    }

    fn is_routed(&self, id: u16) -> bool {
        self.of(2).any(|route| two(route.body, 0) == Some(id))
    }
}

#[cfg(test)]
mod tests {
    use super::*;

    #[test]
    fn kinds_rise_and_bytes_come_last() {
        assert!(FORMS.windows(2).all(|two| two[0].kind < two[1].kind));
        for form in FORMS {
            let before = form
                .parts
                .split_last()
                .map_or(&[][..], |(_, before)| before);
            assert!(!before.iter().any(|part| matches!(part, Bytes(_))));
            // The id of a row stands first.
            assert!(form.rows.is_none() || matches!(form.parts[0], Two(_)));
        }
    }
}
