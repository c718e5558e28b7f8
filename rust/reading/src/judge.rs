//! "Packet layout and its judge".

/// "The judge by itself answers 0 with command id and argument count, or its
/// first refusal with every other number zero."
#[derive(Clone, Copy, PartialEq, Eq, Debug)]
pub struct Judged {
    pub answer: u8,
    pub id: u16,
    pub count: usize,
}

/// "... or its first refusal with every other number zero."
fn refusal(answer: u8) -> Judged {
    Judged {
        answer,
        id: 0,
        count: 0,
    }
}

/// "Order for a packet: 20 to 29 as numbered"; the judge's own part is 22 to 29.
pub fn judge(packet: &[u8]) -> Judged {
    // "22 | packet below 6 bytes"
    if packet.len() < 6 {
        return refusal(22);
    }

    // "Bytes 4 and 5 hold the data length less one."
    // "Numbers in packets are big-endian."
    let length_field: usize = usize::from(u16::from_be_bytes([packet[4], packet[5]]));

    // "23 | packet size not 7 + length field"
    // (A sum too big for a usize would be no packet's size.)
    if Some(packet.len()) != length_field.checked_add(7) {
        return refusal(23);
    }
    // From here the packet has at least 7 bytes, so byte 6 is there.

    // "the high three bits of byte 0 are the version"
    let version: u8 = packet[0] >> 5;
    // "24 | version not 0"
    if version != 0 {
        return refusal(24);
    }

    // "the next bit the type (1 is telecommand)"
    let kind: u8 = (packet[0] >> 4) & 1;
    // "25 | type not telecommand"
    if kind != 1 {
        return refusal(25);
    }

    // "the next the secondary header flag"
    let secondary: u8 = (packet[0] >> 3) & 1;
    // "26 | no secondary header"
    if secondary != 1 {
        return refusal(26);
    }

    // "APID, flags and count are not read yet."

    // "The XOR of every byte of the packet, pads too, is zero"
    let mut xor: u8 = 0;
    for byte in packet {
        xor ^= *byte;
    }
    // "27 | XOR not zero"
    if xor != 0 {
        return refusal(27);
    }

    // "Bytes 4 and 5 hold the data length less one." The packet is the six bytes
    // of the primary header and its data, so this is length field + 1 as well.
    let data_length: usize = packet.len().saturating_sub(6);

    // "Byte 6 is the function code: its low seven bits count pad bytes at the end
    // of the packet, its high bit is ignored."
    let pads: usize = usize::from(packet[6] & 0x7F);

    // "28 | data length - pads below 4"; less than nothing is below 4 too.
    // "their number is data length - pads - 4"
    let count: usize = match data_length.checked_sub(pads) {
        None => return refusal(28),
        Some(rest) => match rest.checked_sub(4) {
            None => return refusal(28),
            Some(count) => count,
        },
    };

    // "29 | more than 255 arguments"
    if count > 255 {
        return refusal(29);
    }

    // Data length is at least 4 here, so the packet has bytes 0 to 9.
    // "Bytes 8 and 9 are the command id."
    let id: u16 = u16::from_be_bytes([packet[8], packet[9]]);

    // "answers 0 with command id and argument count"
    Judged {
        answer: 0,
        id,
        count,
    }
}

/// "An enquiry beside the judge gives the caller the argument part of the lent
/// packet itself, uncopied; for a packet that the judge refuses it gives the empty
/// part at the packet's start." Given here as (offset, length).
pub fn arguments(packet: &[u8]) -> (usize, usize) {
    let judged = judge(packet);
    if judged.answer != 0 {
        return (0, 0);
    }
    // "The argument bytes start at byte 10"; "Pad bytes are never arguments."
    (10, judged.count)
}
