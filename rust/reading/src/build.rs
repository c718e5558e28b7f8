//! "Wish 2. The packet builder" of the second paper. Where a packet's numbers stand
//! is said in "Packet layout and its judge" of the first.

use crate::judge::judge;

/// "We want a builder: APID, sequence count, command id, arguments and a number of
/// zero pad bytes in; the packet out". `room` is the number of bytes the output has;
/// what is given back is the packet's bytes and no others, or the first refusal.
pub fn build(
    apid: u16,
    count: u16,
    id: u16,
    arguments: &[u8],
    pads: u16,
    room: usize,
) -> Result<Vec<u8>, u8> {
    // "Refusals, in this order, writing nothing:"

    // "40 APID above 2,047"
    if apid > 2_047 {
        return Err(40);
    }

    // "41 count above 16,383"
    if count > 16_383 {
        return Err(41);
    }

    // "42 more than 255 arguments"
    if arguments.len() > 255 {
        return Err(42);
    }

    // "43 more than 127 pads"
    if pads > 127 {
        return Err(43);
    }

    // "their number is data length - pads - 4": so the data length is the number of
    // arguments + pads + 4, from 4 to 386 here.
    let data_length: u16 = (arguments.len() as u16)
        .saturating_add(pads)
        .saturating_add(4);

    // The six bytes of the primary header stand before the data.
    // "23 | packet size not 7 + length field" says the same of the size.
    let size: usize = usize::from(data_length).saturating_add(6);

    // "44 output too small"
    if room < size {
        return Err(44);
    }

    let mut packet: Vec<u8> = Vec::new();

    // "Numbers in packets are big-endian."
    // "In the primary header the high three bits of byte 0 are the version [0, or the
    // judge gives 24], the next bit the type (1 is telecommand), the next the
    // secondary header flag [1, or the judge gives 26]; the low three bits and byte 1
    // are the APID."
    let version: u16 = 0;
    let kind: u16 = 1;
    let secondary: u16 = 1;
    let first: u16 = (version << 13) | (kind << 12) | (secondary << 11) | apid;
    packet.extend_from_slice(&first.to_be_bytes());

    // "Bytes 2 and 3 hold two bits of sequence flags and fourteen of sequence count."
    // "sequence flags both set"
    let flags: u16 = 3;
    let second: u16 = (flags << 14) | count;
    packet.extend_from_slice(&second.to_be_bytes());

    // "Bytes 4 and 5 hold the data length less one."
    let length_field: u16 = data_length.saturating_sub(1);
    packet.extend_from_slice(&length_field.to_be_bytes());

    // "Byte 6 is the function code: its low seven bits count pad bytes at the end of
    // the packet"; "high bit of the function code zero": pads are at most 127 here.
    let function_code: u8 = pads as u8;
    packet.push(function_code);

    // "Byte 7 is the checksum." Zero until the other bytes are there.
    packet.push(0);

    // "Bytes 8 and 9 are the command id."
    packet.extend_from_slice(&id.to_be_bytes());

    // "The argument bytes start at byte 10"
    packet.extend_from_slice(arguments);

    // "a number of zero pad bytes"; "pad bytes at the end of the packet"
    let pad_bytes: Vec<u8> = vec![0; usize::from(pads)];
    packet.extend_from_slice(&pad_bytes);

    // "The XOR of every byte of the packet, pads too, is zero": the checksum is the
    // XOR of all the others.
    let mut xor: u8 = 0;
    for byte in &packet {
        xor ^= *byte;
    }
    packet[7] = xor;

    Ok(packet)
}

/// "the packet's own fields": what the builder takes, and the flags and the bit that
/// "this form" speaks of.
#[derive(Clone, PartialEq, Eq, Debug)]
pub struct Fields {
    pub apid: u16,
    pub count: u16,
    pub id: u16,
    pub arguments: Vec<u8>,
    pub pads: u16,
    /// The two bits as a number, 0 to 3.
    pub flags: u8,
    /// The high bit of the function code.
    pub high_bit: bool,
}

/// What the packet's own bytes say, for a packet "that judge accepts"; none of
/// another.
pub fn fields(packet: &[u8]) -> Option<Fields> {
    let judged = judge(packet);
    if judged.answer != 0 {
        return None;
    }
    // An accepted packet has bytes 0 to 9.

    // "the low three bits and byte 1 are the APID"
    let apid: u16 = u16::from_be_bytes([packet[0] & 0x07, packet[1]]);

    // "Bytes 2 and 3 hold two bits of sequence flags and fourteen of sequence count."
    let flags: u8 = packet[2] >> 6;
    let count: u16 = u16::from_be_bytes([packet[2] & 0x3F, packet[3]]);

    // "Byte 6 is the function code: its low seven bits count pad bytes at the end of
    // the packet, its high bit is ignored."
    let pads: u16 = u16::from(packet[6] & 0x7F);
    let high_bit: bool = packet[6] & 0x80 != 0;

    // "The argument bytes start at byte 10"; "Pad bytes are never arguments."
    let arguments: Vec<u8> = packet.iter().skip(10).take(judged.count).copied().collect();

    Some(Fields {
        apid,
        count,
        id: judged.id,
        arguments,
        pads,
        flags,
        high_bit,
    })
}

/// "What that judge accepts in this form (those flags, that bit, every pad byte
/// zero)".
pub fn in_form(packet: &[u8]) -> bool {
    // "What that judge accepts"
    let own = match fields(packet) {
        Some(own) => own,
        None => return false,
    };

    // "those flags": "sequence flags both set"
    if own.flags != 3 {
        return false;
    }

    // "that bit": "high bit of the function code zero"
    if own.high_bit {
        return false;
    }

    // "every pad byte zero": "pad bytes at the end of the packet"
    packet
        .iter()
        .rev()
        .take(usize::from(own.pads))
        .all(|pad| *pad == 0)
}
