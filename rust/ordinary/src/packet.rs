//! The packet judge.

use crate::answer::Outcome;

/// What an accepted packet carries. The arguments are the packet's own bytes.
#[derive(Clone, Copy, Debug, PartialEq, Eq)]
pub struct Command<'a> {
    pub id: u16,
    pub arguments: &'a [u8],
}

/// The command of a packet, or the first refusal.
pub fn judge(packet: &[u8]) -> Result<Command<'_>, Outcome> {
    if packet.len() < 6 {
        return Err(Outcome::Short);
    }
    let field = u16::from_be_bytes([packet[4], packet[5]]);
    if packet.len() != 7 + usize::from(field) {
        return Err(Outcome::BadSize);
    }
    if packet[0] >> 5 != 0 {
        return Err(Outcome::BadVersion);
    }
    if packet[0] & 0x10 == 0 {
        return Err(Outcome::BadType);
    }
    if packet[0] & 0x08 == 0 {
        return Err(Outcome::NoSecondary);
    }
    if xor(packet) != 0 {
        return Err(Outcome::BadXor);
    }
    let pads = usize::from(packet[6] & 0x7F);
    let data = packet.len() - 6;
    if data < pads + 4 {
        return Err(Outcome::ShortData);
    }
    let arguments = &packet[10..packet.len() - pads];
    if arguments.len() > 255 {
        return Err(Outcome::TooLong);
    }
    Ok(Command {
        id: u16::from_be_bytes([packet[8], packet[9]]),
        arguments,
    })
}

/// The XOR of all bytes, eight at a time: the compiler makes no wide loop of a fold over bytes here.
pub(crate) fn xor(bytes: &[u8]) -> u8 {
    let chunks = bytes.chunks_exact(8);
    let rest = chunks.remainder().iter().fold(0, |xor, byte| xor ^ byte);
    let word = chunks.fold(0, |xor, chunk| {
        xor ^ chunk.try_into().map_or(0, u64::from_ne_bytes)
    });
    word.to_ne_bytes().iter().fold(rest, |xor, byte| xor ^ byte)
}

/// The argument part of a packet, or the empty part at its start.
pub fn arguments(packet: &[u8]) -> &[u8] {
    judge(packet).map_or(&packet[..0], |command| command.arguments)
}
