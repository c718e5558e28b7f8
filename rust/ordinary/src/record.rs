//! Records: body length and kind, two bytes each, little-endian, then the body.

pub struct Record<'a> {
    pub kind: u16,
    pub body: &'a [u8],
    /// Header and body.
    pub size: usize,
}

/// The first record of some bytes, or nothing where it is cut.
#[inline]
pub fn first(bytes: &[u8]) -> Option<Record<'_>> {
    let (header, rest) = bytes.split_first_chunk::<4>()?;
    let length = usize::from(u16::from_le_bytes([header[0], header[1]]));
    Some(Record {
        kind: u16::from_le_bytes([header[2], header[3]]),
        body: rest.get(..length)?,
        size: 4 + length,
    })
}
