//! A refused image in words. Number and offset are the library's; what is wrong is looked for in the image under that number
//! alone, so that the words never say another, and where nothing is found they are left out.

use super::forms::{form, Before, Form, Part, FORMS};
use super::records::{header, record, two, Record};
use crate::cell::{append_spaced, counted};
use tamezohishu::{LoadError, LoadRefusal, ROW_ARGUMENTS};

/// The most bytes of a record that are shown.
const SHOWN: usize = 32;

/// The refusal's number, its words, and what is wrong.
pub fn told(image: &[u8], error: &LoadError) -> String {
    let LoadError { refusal, offset } = *error;
    let number = refusal.number();
    match wrong(image, refusal, offset) {
        Some(wrong) => format!("{number} {refusal}: {wrong}"),
        None => format!("{number} {refusal}"),
    }
}

/// The bytes of the record at an offset, as many as there are, for a message; none at the image's end.
pub fn shown(image: &[u8], offset: usize) -> Option<String> {
    let rest = image.get(offset..).filter(|rest| !rest.is_empty())?;
    let length = header(image, offset).map_or(rest.len(), |(body, _)| 4 + body);
    let bytes = &rest[..length.min(rest.len())];
    let mut text = String::new();
    append_spaced(&bytes[..bytes.len().min(SHOWN)], &mut text);
    if bytes.len() > SHOWN {
        text.push_str(&format!(" .. ({} bytes)", bytes.len()));
    }
    Some(text.trim_start().to_string())
}

/// What is wrong with the record at an offset.
fn wrong(image: &[u8], refusal: LoadRefusal, offset: usize) -> Option<String> {
    match refusal {
        LoadRefusal::PastEnd => return cut(image, offset),
        LoadRefusal::Empty | LoadRefusal::Other(_) => return None,
        _ => {}
    }
    let record = record(image, offset)?;
    let before = Before::new(image, offset);
    match refusal {
        LoadRefusal::BadKind => unknown(record.kind),
        LoadRefusal::BadLength => length(form(record.kind)?, record.body),
        LoadRefusal::BadOrder => order(form(record.kind)?, &record, &before),
        LoadRefusal::TooMany => many(form(record.kind)?, &before),
        _ => (form(record.kind)?.broken)(record.body, &before),
    }
}

fn cut(image: &[u8], offset: usize) -> Option<String> {
    let left = image.len().checked_sub(offset)?;
    let Some((body, _)) = header(image, offset) else {
        return Some(format!("{} left: a header has 4", counted(left, "byte")));
    };
    let left = left - 4;
    (left < body).then(|| format!("{} left: the body has {body}", counted(left, "byte")))
}

fn unknown(kind: u16) -> Option<String> {
    let (first, last) = (FORMS.first()?.kind, FORMS.last()?.kind);
    let known = form(kind).is_some();
    (!known).then(|| format!("kind {kind}: kinds are {first} to {last}"))
}

fn length(form: &Form, body: &[u8]) -> Option<String> {
    let (there, name) = (body.len(), form.name);
    let body_of = format!("body of {}", counted(there, "byte"));
    let least = form.parts.iter().map(Part::least).sum();
    if !matches!(form.parts.last(), Some(Part::Bytes(_))) {
        return (there != least).then(|| format!("{body_of}: {name} has {least}"));
    }
    if there < least {
        let told = format!("{body_of}: {name} has {least} and its arguments");
        return Some(told);
    }
    // The number of arguments stands before the first of them.
    let arguments = usize::from(*body.get(least - 1)?);
    if arguments > ROW_ARGUMENTS {
        let told = format!("{arguments} arguments: {name} has at most {ROW_ARGUMENTS}");
        return Some(told);
    }
    let whole = least + arguments;
    (there != whole)
        .then(|| format!("{body_of}: {name} has {least} and its arguments, here {arguments}"))
}

impl Part {
    /// How many bytes it has at least.
    fn least(&self) -> usize {
        match self {
            Part::Two(_) | Part::Named(_) => 2,
            Part::One(_) | Part::Either(..) | Part::Flag(_) | Part::Bytes(_) => 1,
            Part::Word(_) => 0,
        }
    }
}

fn order(form: &Form, record: &Record, before: &Before) -> Option<String> {
    let (name, basics) = (form.name, FORMS.first()?);
    let Some(last) = before.last() else {
        let first = basics.name;
        let other = form.kind != basics.kind;
        return other.then(|| format!("{name} comes first: expected {first}"));
    };
    let alone = form.rows.is_none() && before.number_of(form.kind) > 0;
    if alone {
        return Some(format!("{name} is there already"));
    }
    if form.kind < last.kind {
        let last = self::form(last.kind)?.name;
        return Some(format!("{name} behind {last}: kinds never fall"));
    }
    let (id, last_id) = (two(record.body, 0)?, two(last.body, 0)?);
    let rows = form.rows.as_ref()?;
    let low = form.kind == last.kind && id <= last_id;
    low.then(|| format!("{} {id} is not above {last_id}, the one before", rows.id))
}

fn many(form: &Form, before: &Before) -> Option<String> {
    let (rows, there) = (form.rows.as_ref()?, before.number_of(form.kind));
    let full = there >= rows.most;
    full.then(|| {
        format!(
            "{there} {}s stand before it, the most there may be",
            rows.id
        )
    })
}

#[cfg(test)]
mod tests {
    use super::*;
    use crate::cell::bytes;
    use tamezohishu::Configuration;

    const C: &str = "06 00 01 00 01 00 02 00 64 00  03 00 02 00 0A 00 01  03 00 02 00 14 00 02 \
                     02 00 03 00 14 00  08 00 04 00 07 00 0A 00 01 01 01 AA";
    const BASICS: &str = "06 00 01 00 01 00 02 00 64 00";
    const ROUTE: &str = "03 00 02 00 14 00 02";

    /// The first words of the refusal of an image: its number, and what stands behind the library's own words.
    fn refused(image: &[u8]) -> (u8, usize, String) {
        let error = Configuration::load(image).expect_err("the image is refused");
        let told = told(image, &error);
        let own = format!("{} {}", error.refusal.number(), error.refusal);
        let behind = told
            .strip_prefix(&own)
            .expect("number and words stand first");
        let number = error.refusal.number();
        (
            number,
            error.offset,
            behind.trim_start_matches(": ").to_string(),
        )
    }

    fn hex(text: &str) -> Vec<u8> {
        bytes(text).expect("it is hex")
    }

    #[test]
    fn each_thing_that_is_wrong_has_its_words() {
        let two = format!("{BASICS} {ROUTE}");
        for (records, number, expected) in [
            ("", 5, ""),
            ("06 00 01", 1, "3 bytes left: a header has 4"),
            ("06 00 01 00 01", 1, "1 byte left: the body has 6"),
            ("00 00 09 00", 2, "kind 9: kinds are 1 to 4"),
            ("00 00 00 00", 2, "kind 0: kinds are 1 to 4"),
            ("01 00 01 00 00", 3, "body of 1 byte: a basics record has 6"),
            ("00 00 02 00", 3, "body of no bytes: a route has 3"),
            (
                "03 00 03 00 14 00 00",
                3,
                "body of 3 bytes: a protected id has 2",
            ),
            (
                "06 00 04 00 07 00 0A 00 01 01",
                3,
                "body of 6 bytes: a fault row has 7 and its arguments",
            ),
            (
                "08 00 04 00 07 00 0A 00 01 01 02 AA",
                3,
                "body of 8 bytes: a fault row has 7 and its arguments, here 2",
            ),
            (
                "07 00 04 00 07 00 0A 00 01 01 11",
                3,
                "17 arguments: a fault row has at most 16",
            ),
            (ROUTE, 4, "a route comes first: expected a basics record"),
            (
                "06 00 01 00 01 00 01 00 64 00",
                7,
                "ground and fault are both 1",
            ),
            (
                "06 00 01 00 01 00 02 00 F9 FF",
                7,
                "own 65529: own is at most 65528",
            ),
        ] {
            assert_eq!(refused(&hex(records)), (number, 0, expected.to_string()));
        }
        for (records, number, expected) in [
            (BASICS, 4, "a basics record is there already"),
            (ROUTE, 4, "route id 20 is not above 20, the one before"),
            (
                "03 00 02 00 15 00 00",
                7,
                "destination 0: destinations are 1 to 31",
            ),
            (
                "03 00 02 00 15 00 20",
                7,
                "destination 32: destinations are 1 to 31",
            ),
            (
                "03 00 02 00 64 00 02",
                7,
                "route id 100 is an own id: these are 100 to 107",
            ),
            (
                "03 00 02 00 6B 00 02",
                7,
                "route id 107 is an own id: these are 100 to 107",
            ),
            ("02 00 03 00 64 00", 7, "protected id 100 is the arm id"),
            (
                "02 00 03 00 6C 00",
                7,
                "protected id 108 is neither routed nor own",
            ),
            (
                "07 00 04 00 07 00 15 00 01 01 00",
                7,
                "command 21 is not routed",
            ),
            (
                "07 00 04 00 07 00 64 00 01 01 00",
                7,
                "command 100 is not routed",
            ),
            (
                "07 00 04 00 07 00 14 00 02 01 00",
                7,
                "start state 2: 0 is disabled, 1 enabled",
            ),
            (
                "07 00 04 00 07 00 14 00 01 02 00",
                7,
                "latching 2: 0 is no, 1 yes",
            ),
        ] {
            let image = hex(&format!("{two} {records}"));
            assert_eq!(refused(&image), (number, 17, expected.to_string()));
        }
        let image = hex(&format!("{two} 02 00 03 00 14 00 {ROUTE}"));
        let falls = "a route behind a protected id: kinds never fall";
        assert_eq!(refused(&image), (4, 23, falls.to_string()));
    }

    #[test]
    fn a_table_that_is_full_is_told() {
        let mut image = hex(BASICS);
        for id in 200..329u16 {
            let [low, high] = id.to_le_bytes();
            image.extend_from_slice(&[3, 0, 2, 0, low, high, 1]);
        }
        let full = "128 route ids stand before it, the most there may be";
        assert_eq!(refused(&image), (6, 10 + 7 * 128, full.to_string()));
    }

    /// Configuration C loads whole and where it is cut between two records; anywhere else it is cut in the record there.
    #[test]
    fn an_image_that_is_cut_anywhere() {
        let image = hex(C);
        let starts = [0, 10, 17, 24, 30, 42];
        for end in 1..=image.len() {
            let cut = &image[..end];
            if starts.contains(&end) {
                assert!(Configuration::load(cut).is_ok(), "{end}");
                continue;
            }
            let start = starts.into_iter().filter(|start| *start < end).max();
            let start = start.expect("a record begins before the end");
            let (number, offset, told) = refused(cut);
            assert_eq!((number, offset), (1, start), "{end}");
            assert!(told.contains("left"), "{end}: {told}");
            assert_eq!(reading::load(cut).answer, 1);
            assert_eq!(reading::load(cut).offset, start);
            let shown = shown(cut, offset).expect("bytes are left");
            assert_eq!(hex(&shown), cut[start..], "{end}");
        }
        assert_eq!(refused(&[]), (5, 0, String::new()));
    }

    /// Under another number than the one that the library gave nothing is found.
    #[test]
    fn no_words_where_nothing_is_wrong() {
        let image = hex(C);
        for refusal in LoadRefusal::NAMED {
            for offset in [0, 10, 17, 24, 30, 42, 43, usize::MAX] {
                let past = *refusal == LoadRefusal::PastEnd && offset == 42;
                assert_eq!(wrong(&image, *refusal, offset).is_some(), past);
            }
        }
        assert_eq!(wrong(&image, LoadRefusal::Other(8), 10), None);
    }

    #[test]
    fn a_long_record_is_cut() {
        let long = [[0xFF, 0xFF, 9, 0], [1, 2, 3, 4]].concat();
        assert_eq!(shown(&long, 0).as_deref(), Some("FF FF 09 00 01 02 03 04"));
        let long = [vec![36, 0, 9, 0], vec![0xAA; 50]].concat();
        let told = format!("24 00 09 00{} .. (40 bytes)", " AA".repeat(28));
        assert_eq!(shown(&long, 0), Some(told));
        assert_eq!(shown(&long, long.len()), None);
    }
}
