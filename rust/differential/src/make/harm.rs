//! Made-up harm to a saved form.

use crate::dice::Dice;
use crate::saved::seal;

/// Flips bits within so many in a row, the first and the last of them for certain.
fn burst(dice: &mut Dice, bytes: &mut [u8], length: usize) {
    let from = dice.below(8 * bytes.len() - length + 1);
    for k in 0..length {
        if k == 0 || k == length - 1 || dice.percent(50) {
            let bit = from + k;
            bytes[bit / 8] ^= 1 << (bit % 8);
        }
    }
}

/// The bytes of a form after one of the things that can happen to them, nothing among them. `other` is a form of the other
/// kind. Some of the harm is made by hand, with a check value that fits.
pub fn any(dice: &mut Dice, form: &[u8], other: &[u8]) -> Vec<u8> {
    let mut bytes = form.to_vec();
    let size = bytes.len();
    match dice.below(12) {
        0 => burst(dice, &mut bytes, 1),
        1 => {
            let length = dice.from(2, 32);
            burst(dice, &mut bytes, length);
        }
        // Bytes anywhere that are noise: any number of them.
        2 => {
            let from = dice.below(size);
            let to = dice.from(from, size);
            dice.fill(&mut bytes[from..to]);
        }
        3 => {
            let any = dice.below(size);
            bytes.truncate(dice.one(&[any, any, 0, 3, 4, 7, 8, size - 1]));
        }
        4 => {
            let any = dice.from(1, 2 * size);
            let more = dice.one(&[any, 1, 4]);
            bytes.extend(dice.bytes(more));
        }
        5 => bytes = other.to_vec(),
        // Another version: by hand, of any length, or by damage.
        6 => {
            bytes[3] = dice.byte();
            seal(&mut bytes);
        }
        7 => {
            bytes[3] = dice.byte();
            bytes.resize(dice.from(8, 2 * size), 0);
            seal(&mut bytes);
        }
        8 => bytes[3] = dice.byte(),
        // The fields alone, with no head and no check value.
        9 => bytes = bytes[dice.one(&[4, 8])..size - 4].to_vec(),
        // Fields of any sort, and a check value that fits: to be taken as they are.
        10 => {
            let from = dice.from(8, size - 4);
            let to = dice.from(from, size - 4);
            dice.fill(&mut bytes[from..to]);
            seal(&mut bytes);
        }
        _ => {}
    }
    bytes
}
