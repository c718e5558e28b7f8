//! A packet by itself: the judge's numbers, all of them, and the argument part, its place included.

use super::same;
use crate::dice::Dice;
use crate::make::packet;
use crate::mirror::hex;
use crate::raw;
use crate::tally::Tally;

pub fn case(dice: &mut Dice, tally: &mut Tally) -> Result<(), String> {
    let mut bytes = Vec::with_capacity(400);
    packet::any(dice, &mut bytes);
    let told = || format!("packet: {}", hex(&bytes));

    let library = raw::judge(&bytes);
    let reading = reading::judge(&bytes);
    tally.judge.met(library.answer);
    same(
        "judge",
        (library.answer, library.id, usize::from(library.count)),
        (reading.answer, reading.id, reading.count),
        told,
    )?;

    let safe = match tamezohishu::judge(&bytes) {
        Ok(judged) => (0, judged.id, judged.count),
        Err(refusal) => (refusal.number(), 0, 0),
    };
    let raw = (library.answer, library.id, library.count);
    same("judge, by the safe crate", safe, raw, told)?;

    // The part is the caller's own bytes, so its place is an address.
    let part = tamezohishu::arguments(&bytes);
    let offset = (part.as_ptr() as usize).wrapping_sub(bytes.as_ptr() as usize);
    let place = (offset, part.len());
    same("arguments", place, reading::arguments(&bytes), told)
}
