//! The packet judge and the enquiry beside it.

use crate::ffi;
use crate::numbers::Refusal;

/// What the judge says of a packet that it accepts.
#[derive(Clone, Copy, PartialEq, Eq, Debug)]
pub struct Judged {
    /// The command id.
    pub id: u16,
    /// How many argument bytes there are.
    pub count: u8,
}

/// Judges a packet by itself, with no configuration and no state.
#[inline]
pub fn judge(packet: &[u8]) -> Result<Judged, Refusal> {
    // SAFETY: the pointer is not null and has `len` bytes that nothing writes to meanwhile.
    let judged = unsafe { ffi::tz_judge(packet.as_ptr(), packet.len()) };
    if judged.answer != 0 {
        return Err(refused(judged.answer));
    }
    Ok(Judged {
        id: judged.id,
        count: judged.count,
    })
}

/// Out of the way of a packet that is accepted.
#[cold]
#[inline(never)]
fn refused(answer: u8) -> Refusal {
    Refusal::from(answer)
}

/// The argument part of the packet itself, uncopied; for a packet that the judge refuses, the empty part at its start.
pub fn arguments(packet: &[u8]) -> &[u8] {
    // SAFETY: as in `judge`.
    let part = unsafe { ffi::tz_arguments(packet.as_ptr(), packet.len()) };
    let end = part.offset.saturating_add(part.length);
    // The library is proved to hand out a part of the packet; were it not to, this gives the empty part and no panic.
    packet.get(part.offset..end).unwrap_or(&packet[..0])
}
