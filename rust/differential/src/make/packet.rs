//! Made-up packets: noise, well-formed ones, and well-formed ones with one field damaged.

use crate::dice::Dice;

/// Makes the XOR of all bytes zero by one byte of the packet, byte 7 where there is one.
pub fn seal(packet: &mut [u8]) {
    let place = if packet.len() > 7 { 7 } else { 1 };
    if packet.len() > place {
        packet[place] = 0;
        packet[place] = packet.iter().fold(0, |xor, byte| xor ^ byte);
    }
}

/// Sets the length field to the packet's size.
fn size(packet: &mut [u8]) {
    if packet.len() >= 7 {
        let field = (packet.len() - 7) as u16;
        packet[4..6].copy_from_slice(&field.to_be_bytes());
    }
}

/// A well-formed packet with made-up APID, sequence fields, function code's high bit and pad bytes.
pub fn well_formed(dice: &mut Dice, packet: &mut Vec<u8>, id: u16, arguments: &[u8], pads: usize) {
    let word = dice.eight().to_le_bytes();
    packet.clear();
    packet.extend_from_slice(&[0x18 | (word[0] & 7), word[1], word[2], word[3], 0, 0]);
    packet.extend_from_slice(&[(word[4] & 0x80) | (pads as u8 & 0x7F), 0]);
    packet.extend_from_slice(&id.to_be_bytes());
    packet.extend_from_slice(arguments);
    let end = packet.len();
    packet.resize(end + pads, 0);
    dice.fill(&mut packet[end..]);
    size(packet);
    seal(packet);
}

/// How many arguments: few, any number that is accepted, or about the limit.
pub(super) fn arguments(dice: &mut Dice) -> usize {
    match dice.below(10) {
        0..=4 => dice.below(9),
        5..=7 => dice.below(256),
        _ => dice.from(250, 262),
    }
}

pub(super) fn pads(dice: &mut Dice) -> usize {
    match dice.below(10) {
        0..=4 => 0,
        5..=6 => dice.below(5),
        _ => dice.below(128),
    }
}

/// Any packet: see the head of this file.
pub fn any(dice: &mut Dice, packet: &mut Vec<u8>) {
    match dice.below(2000) {
        // Noise, as short as nothing.
        0..=119 => {
            let n = dice.below(24);
            packet.resize(n, 0);
            dice.fill(packet);
        }
        // Noise that has the right size, so that the later checks see it.
        120..=219 => {
            let n = dice.from(7, 40);
            packet.resize(n, 0);
            dice.fill(packet);
            packet[0] = dice.one(&[packet[0], packet[0] & 0x1F, 0x18 | (packet[0] & 7)]);
            size(packet);
            if dice.percent(70) {
                seal(packet);
            }
        }
        // Long ones: the longest that a record holds, that the length field can say, and one more.
        220 => {
            let n = dice.one(&[300, 1000, 65_535, 65_536, 65_541, 65_542, 65_543, 65_544]);
            packet.resize(n, 0);
            dice.fill(packet);
            packet[0] = 0x18;
            size(packet);
            seal(packet);
        }
        // Well-formed, then perhaps damaged.
        _ => {
            let mut bytes = [0; 262];
            let n = arguments(dice);
            dice.fill(&mut bytes[..n]);
            let id = dice.two();
            let pads = pads(dice);
            well_formed(dice, packet, id, &bytes[..n], pads);
            if dice.percent(55) {
                damage(dice, packet);
            }
            if dice.percent(3) {
                damage(dice, packet);
            }
        }
    }
}

/// Damages one field. Where the XOR is another field's matter, the packet is sealed again, mostly.
pub fn damage(dice: &mut Dice, packet: &mut Vec<u8>) {
    if packet.len() < 7 {
        return;
    }
    let mut reseal = dice.percent(80);
    match dice.below(10) {
        // Size: bytes lost or added, or another length field.
        0 => {
            let n = dice.from(1, 3);
            if dice.percent(50) {
                packet.truncate(packet.len() - n.min(packet.len()));
            } else {
                let byte = dice.byte();
                packet.resize(packet.len() + n, byte);
            }
            reseal = false;
        }
        1 => {
            let field = u16::from_be_bytes([packet[4], packet[5]]);
            let other = dice.one(&[field ^ 1, field ^ 0x100, !field, field.wrapping_add(7)]);
            packet[4..6].copy_from_slice(&other.to_be_bytes());
        }
        // Version, type, secondary header flag.
        2 => packet[0] ^= (dice.from(1, 7) as u8) << 5,
        3 => packet[0] ^= 0x10,
        4 => packet[0] ^= 0x08,
        // XOR: a bit of any byte but the length field, where the size would be found first.
        5 => {
            let behind = dice.from(6, packet.len() - 1);
            let at = dice.one(&[1, 2, 3, behind, behind, behind]);
            packet[at] ^= 1 << dice.below(8);
            reseal = false;
        }
        // More pads than there are data, or nearly.
        6 => {
            let data = packet.len() - 6;
            let most = dice.one(&[
                data + 1,
                data,
                data.saturating_sub(1),
                data.saturating_sub(3),
            ]);
            packet[6] = (packet[6] & 0x80) | most.saturating_sub(dice.below(2)).min(127) as u8;
        }
        // Data too short for an id.
        7 => {
            packet.truncate(dice.from(7, 10));
            packet[6] &= dice.one(&[0x80, 0xFF]);
            size(packet);
        }
        // The function code's high bit alone: nothing reads it but the XOR.
        8 => packet[6] ^= 0x80,
        // Arguments about the limit, with pads or none.
        _ => {
            let pads = usize::from(packet[6] & 0x7F);
            packet.resize(10 + dice.from(253, 260) + pads, 0x5A);
            size(packet);
        }
    }
    if reseal {
        seal(packet);
    }
}
