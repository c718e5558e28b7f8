//! Made-up packets about the form that the builder makes: in it, out of it by one thing, and any others.

use super::packet;
use crate::dice::Dice;

/// An accepted packet with both sequence flags, no high bit of the function code, and every pad byte zero. Gives its pads.
fn in_form(dice: &mut Dice, bytes: &mut Vec<u8>) -> usize {
    let count = packet::arguments(dice).min(255);
    let arguments = dice.bytes(count);
    let (id, pads) = (dice.two(), packet::pads(dice));
    packet::well_formed(dice, bytes, id, &arguments, pads);
    bytes[2] |= 0xC0;
    bytes[6] &= 0x7F;
    bytes[10 + count..].fill(0);
    packet::seal(bytes);
    pads
}

/// Any packet: see the head of this file. One that is out of the form by one thing is accepted still.
pub fn any(dice: &mut Dice, bytes: &mut Vec<u8>) {
    if dice.percent(30) {
        return packet::any(dice, bytes);
    }
    let pads = in_form(dice, bytes);
    match dice.below(6) {
        0 => bytes[2] ^= dice.one(&[0x40, 0x80, 0xC0]),
        1 => bytes[6] |= 0x80,
        // The first pad byte, the last, or any.
        2 if pads > 0 => {
            let behind = dice.from(1, pads);
            let place = bytes.len() - dice.one(&[1, pads, behind]);
            bytes[place] = dice.from(1, 255) as u8;
        }
        _ => return,
    }
    packet::seal(bytes);
}
