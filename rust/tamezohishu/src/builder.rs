//! The packet builder: a telecommand packet from its fields.

use crate::ffi;
use crate::numbers::BuildRefusal;
use crate::sizes::LONGEST_BUILT;

/// What a packet is built from. A number may be past its limit: the builder refuses it, nothing is cut.
#[derive(Clone, Copy, PartialEq, Eq, Debug)]
pub struct Fields<'a> {
    /// The APID, at most 2,047.
    pub apid: u16,
    /// The sequence count, at most 16,383.
    pub count: u16,
    /// The command id.
    pub id: u16,
    /// The argument bytes, at most 255.
    pub arguments: &'a [u8],
    /// How many zero bytes follow the arguments, at most 127.
    pub pads: u16,
}

/// Builds the packet, or says why not. The Vec has the packet's bytes and no more; [`BuildRefusal::OutputTooSmall`] never comes.
///
/// ```
/// use tamezohishu::{build, judge, Fields};
///
/// # fn main() -> Result<(), Box<dyn std::error::Error>> {
/// let arm = build(&Fields { apid: 1, count: 0, id: 100, arguments: &[2], pads: 0 })?;
/// assert_eq!(arm, [0x18, 0x01, 0xC0, 0x00, 0x00, 0x04, 0x00, 0xBB, 0x00, 0x64, 0x02]);
/// assert_eq!(judge(&arm)?.id, 100);
///
/// let refused = build(&Fields { apid: 2048, count: 0, id: 100, arguments: &[2], pads: 0 });
/// assert_eq!(refused.unwrap_err().to_string(), "APID above 2,047");
/// # Ok(())
/// # }
/// ```
pub fn build(fields: &Fields) -> Result<Vec<u8>, BuildRefusal> {
    let mut packet = vec![0; LONGEST_BUILT];
    let written = build_into(fields, &mut packet)?;
    packet.truncate(written);
    Ok(packet)
}

/// Builds the packet at the start of `out` and gives the number of its bytes. Later bytes stay; a refusal writes nothing.
pub fn build_into(fields: &Fields, out: &mut [u8]) -> Result<usize, BuildRefusal> {
    // SAFETY: both pointers are not null and have so many bytes; nothing else has those of `out` meanwhile.
    let built = unsafe {
        ffi::tz_build(
            fields.apid,
            fields.count,
            fields.id,
            fields.arguments.as_ptr(),
            fields.arguments.len(),
            fields.pads,
            out.as_mut_ptr(),
            out.len(),
        )
    };
    match built.answer {
        0 => Ok(usize::from(built.written)),
        refusal => Err(BuildRefusal::from(refusal)),
    }
}
