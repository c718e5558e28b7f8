//! The packet builder.

use crate::packet::xor;

/// What a packet is built from.
#[derive(Clone, Copy, Debug, PartialEq, Eq)]
pub struct Fields<'a> {
    pub apid: u16,
    pub count: u16,
    pub id: u16,
    pub arguments: &'a [u8],
    pub pads: u16,
}

#[derive(Clone, Copy, Debug, PartialEq, Eq)]
#[repr(u8)]
pub enum BuildRefusal {
    ApidTooHigh = 40,
    CountTooHigh = 41,
    TooManyArguments = 42,
    TooManyPads = 43,
    OutputTooSmall = 44,
}

/// Builds the packet at the start of `out` and gives its size, or the first refusal and writes nothing.
pub fn build(fields: &Fields<'_>, out: &mut [u8]) -> Result<usize, BuildRefusal> {
    within_limits(fields)?;
    let (arguments, pads) = (fields.arguments, usize::from(fields.pads));
    let size = 10 + arguments.len() + pads;
    let packet = out.get_mut(..size).ok_or(BuildRefusal::OutputTooSmall)?;
    let (head, data) = packet.split_at_mut(10);

    // The ten bytes before the arguments as pairs, with a checksum of zero.
    let pairs = [
        0x1800 | fields.apid,
        0xC000 | fields.count,
        (size - 7) as u16,
        fields.pads << 8,
        fields.id,
    ];
    for (bytes, pair) in head.chunks_exact_mut(2).zip(pairs) {
        bytes.copy_from_slice(&pair.to_be_bytes());
    }
    // The pads are zero and change nothing.
    let [high, low] = pairs.iter().fold(0, |xor, pair| xor ^ pair).to_be_bytes();
    head[7] = high ^ low ^ xor(arguments);

    let (copy, zeros) = data.split_at_mut(arguments.len());
    copy.copy_from_slice(arguments);
    zeros.fill(0);
    Ok(size)
}

#[inline]
fn within_limits(fields: &Fields<'_>) -> Result<(), BuildRefusal> {
    if fields.apid > 2_047 {
        return Err(BuildRefusal::ApidTooHigh);
    }
    if fields.count > 16_383 {
        return Err(BuildRefusal::CountTooHigh);
    }
    if fields.arguments.len() > 255 {
        return Err(BuildRefusal::TooManyArguments);
    }
    if fields.pads > 127 {
        return Err(BuildRefusal::TooManyPads);
    }
    Ok(())
}
