//! The builder: made-up fields in made-up room, and what both judges say of the packet that was built; made-up packets, built
//! again from their own fields.

use super::same;
use crate::dice::Dice;
use crate::make::{fields, form};
use crate::mirror::hex;
use crate::raw;
use crate::tally::Tally;
use reading::Fields;
use tamezohishu::LONGEST_BUILT;

pub fn case(dice: &mut Dice, tally: &mut Tally) -> Result<(), String> {
    let fields = fields::any(dice);
    let room = fields::room(dice, &fields);
    if let Some(packet) = build(dice, tally, &fields, room)? {
        accepted(&packet, &fields)?;
    }
    into_a_vec(&fields)?;
    again(dice, tally)
}

/// What came back, and the whole output as it then stood, the bytes behind the room too.
struct Came {
    answer: u8,
    written: usize,
    output: Vec<u8>,
}

/// "A writer added later answers 0 and the bytes written, or its refusal and 0": a refusal writes nothing, later bytes stay.
fn by_reading(fields: &Fields, noise: &[u8], room: usize) -> Came {
    let mut output = noise.to_vec();
    let (answer, written) = match in_room(fields, room) {
        Ok(packet) => {
            output[..packet.len()].copy_from_slice(&packet);
            (0, packet.len())
        }
        Err(refusal) => (refusal, 0),
    };
    Came {
        answer,
        written,
        output,
    }
}

fn in_room(fields: &Fields, room: usize) -> Result<Vec<u8>, u8> {
    let (arguments, pads) = (&fields.arguments, fields.pads);
    reading::build(fields.apid, fields.count, fields.id, arguments, pads, room)
}

fn by_library(fields: &Fields, noise: &[u8], room: usize) -> Came {
    let mut output = noise.to_vec();
    let (arguments, pads) = (&fields.arguments, fields.pads);
    let (apid, count, id) = (fields.apid, fields.count, fields.id);
    let built = raw::build(apid, count, id, arguments, pads, &mut output[..room]);
    Came {
        answer: built.answer,
        written: usize::from(built.written),
        output,
    }
}

fn by_safe_crate(fields: &Fields, noise: &[u8], room: usize) -> Came {
    let mut output = noise.to_vec();
    let (answer, written) = match tamezohishu::build_into(&lent(fields), &mut output[..room]) {
        Ok(written) => (0, written),
        Err(refusal) => (refusal.number(), 0),
    };
    Came {
        answer,
        written,
        output,
    }
}

fn lent(fields: &Fields) -> tamezohishu::Fields<'_> {
    tamezohishu::Fields {
        apid: fields.apid,
        count: fields.count,
        id: fields.id,
        arguments: &fields.arguments,
        pads: fields.pads,
    }
}

fn told(fields: &Fields) -> String {
    let (apid, count, id, pads) = (fields.apid, fields.count, fields.id, fields.pads);
    let (n, arguments) = (fields.arguments.len(), hex(&fields.arguments));
    format!("APID {apid}, count {count}, id {id}, {pads} pads, {n} arguments: {arguments}")
}

/// Builds on both sides, in so much room: answer, bytes written, every byte of the output. Gives the packet, if there is one.
fn build(
    dice: &mut Dice,
    tally: &mut Tally,
    fields: &Fields,
    room: usize,
) -> Result<Option<Vec<u8>>, String> {
    let told = || format!("{}\nroom {room}", told(fields));
    // Behind the room that is lent stand as many bytes as a builder that minds no room would write: these have to stay too.
    let noise = dice.bytes(room + LONGEST_BUILT);
    let reading = by_reading(fields, &noise, room);
    let mut library = by_library(fields, &noise, room);
    tally.build.met(library.answer);
    let safe = by_safe_crate(fields, &noise, room);
    for (what, came) in [("build", &library), ("build, by the safe crate", &safe)] {
        let numbers = (came.answer, came.written);
        same(what, numbers, (reading.answer, reading.written), told)?;
        let outputs = || {
            let (library, reading) = (hex(&came.output), hex(&reading.output));
            format!("library: {library}\nreading: {reading}\n{}", told())
        };
        let alike = came.output == reading.output;
        same(&format!("{what}: output alike"), alike, true, outputs)?;
    }
    library.output.truncate(library.written);
    Ok((library.answer == 0).then_some(library.output))
}

/// The safe crate's own room serves always.
fn into_a_vec(fields: &Fields) -> Result<(), String> {
    let library = tamezohishu::build(&lent(fields)).map_err(|refusal| refusal.number());
    let reading = in_room(fields, LONGEST_BUILT);
    same("build into a Vec", library, reading, || told(fields))
}

/// Both judges say the same of a packet, and have the same argument bytes.
fn judged_alike(packet: &[u8]) -> Result<(), String> {
    let told = || format!("packet: {}", hex(packet));
    let library = raw::judge(packet);
    let reading = reading::judge(packet);
    same(
        "judge",
        (library.answer, library.id, usize::from(library.count)),
        (reading.answer, reading.id, reading.count),
        told,
    )?;
    let (offset, length) = reading::arguments(packet);
    let part = tamezohishu::arguments(packet);
    same("arguments", part, &packet[offset..offset + length], told)
}

/// "What it builds, the judge of 01 accepts with the same id and the same arguments": the proved judge, and the reading's with
/// every other field too.
fn accepted(packet: &[u8], fields: &Fields) -> Result<(), String> {
    let told = || format!("packet: {}\nbuilt from {}", hex(packet), told(fields));
    judged_alike(packet)?;
    let library = raw::judge(packet);
    let judged = (library.answer, library.id, tamezohishu::arguments(packet));
    let good = judged == (0, fields.id, &fields.arguments[..]);
    same(
        "what is built is accepted as it was given",
        good,
        true,
        told,
    )?;
    let good = reading::fields(packet).as_ref() == Some(fields);
    same("what is built carries its fields", good, true, told)?;
    let good = reading::in_form(packet);
    same("what is built is in form", good, true, told)
}

/// Which things keep an accepted packet from the builder's form, in the numbers of the tally.
fn departures(packet: &[u8], own: &Fields) -> u8 {
    let pads = &packet[packet.len() - usize::from(own.pads)..];
    let pad = pads.iter().any(|byte| *byte != 0);
    u8::from(own.flags != 3) + 2 * u8::from(own.high_bit) + 4 * u8::from(pad)
}

/// A made-up packet, and what is built from its own fields: the same bytes exactly where the packet is in form.
fn again(dice: &mut Dice, tally: &mut Tally) -> Result<(), String> {
    let mut packet = Vec::with_capacity(400);
    form::any(dice, &mut packet);
    judged_alike(&packet)?;
    let Some(own) = reading::fields(&packet) else {
        return Ok(());
    };
    let told = || format!("packet: {}", hex(&packet));
    let in_form = reading::in_form(&packet);
    let departed = departures(&packet, &own);
    tally.form.met(departed);
    same(
        "nothing keeps it from the form",
        departed == 0,
        in_form,
        told,
    )?;
    let fields = Fields {
        flags: 3,
        high_bit: false,
        ..own
    };
    // An accepted packet's own fields are within their limits, and its own size serves.
    let built = build(dice, tally, &fields, packet.len())?;
    let built = built.ok_or_else(|| format!("its own fields are refused\n{}", told()))?;
    accepted(&built, &fields)?;
    same("equal when built again", built == packet, in_form, told)
}
