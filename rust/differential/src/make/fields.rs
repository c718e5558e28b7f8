//! Made-up fields of a packet for the builder, at, next to and far past their limits, and room for what they make.

use crate::dice::Dice;
use reading::Fields;

/// A number up to its limit, with weight on both ends of that, or one of the given past it.
fn limited(dice: &mut Dice, most: u16, past: &[u16]) -> u16 {
    match dice.below(20) {
        0..=1 => dice.one(past),
        2 => dice.from(usize::from(most) + 1, 65_535) as u16,
        3..=8 => dice.one(&[0, 1, most - 1, most]),
        _ => dice.below(usize::from(most) + 1) as u16,
    }
}

/// How many arguments. A number past 65,535 would be a small one, were it cut to sixteen bits.
fn arguments(dice: &mut Dice) -> usize {
    match dice.below(100) {
        0 => dice.one(&[65_535, 65_536, 65_537, 65_700]),
        1..=11 => dice.one(&[256, 257, 300, 511, 512]),
        12..=39 => dice.one(&[0, 1, 254, 255]),
        40..=79 => dice.below(9),
        _ => dice.below(256),
    }
}

/// Any fields, as the builder takes them: with both flags and no high bit. Among the numbers past a limit are those that
/// would be within it, were their high bits or their high byte cut off.
pub fn any(dice: &mut Dice) -> Fields {
    let arguments = arguments(dice);
    let any = dice.two();
    Fields {
        apid: limited(dice, 2_047, &[2_048, 2_049, 4_096, 0x1800, 65_535]),
        count: limited(dice, 16_383, &[16_384, 16_385, 32_768, 0xC000, 65_535]),
        id: dice.one(&[any, any, any, 0, 255, 256, 65_535]),
        arguments: dice.bytes(arguments),
        pads: match dice.below(3) {
            0 => 0,
            _ => limited(dice, 127, &[128, 129, 255, 256, 257, 383, 65_535]),
        },
        flags: 3,
        high_bit: false,
    }
}

/// Output room for the packet of such fields: exact, one byte less or more, none, any other that serves or does not. Fields
/// past their limits get as much as that, up to a thousand bytes: they are refused in any room.
pub fn room(dice: &mut Dice, fields: &Fields) -> usize {
    let size = 10 + fields.arguments.len() + usize::from(fields.pads);
    let size = size.min(1_000);
    let less = dice.below(size);
    let more = size + dice.below(400);
    match dice.below(12) {
        0..=3 => size,
        4..=5 => size + 1,
        6..=7 => more,
        8..=9 => size - 1,
        10 => less,
        _ => 0,
    }
}
