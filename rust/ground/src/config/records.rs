//! The records of an image, as bytes: body length and kind, two bytes each, little-endian, and the body.

/// A record of an image that is there as a whole.
#[derive(Clone, Copy, PartialEq, Eq, Debug)]
pub struct Record<'a> {
    pub offset: usize,
    pub kind: u16,
    pub body: &'a [u8],
}

/// A header that is there: the length it gives the body, and the kind.
pub fn header(image: &[u8], offset: usize) -> Option<(usize, u16)> {
    let bytes = image.get(offset..)?;
    Some((two(bytes, 0)?.into(), two(bytes, 2)?))
}

/// The record at an offset; none where it passes the image's end.
pub fn record(image: &[u8], offset: usize) -> Option<Record<'_>> {
    let (length, kind) = header(image, offset)?;
    // A header is there, so that its end is no larger than the image.
    let body = image.get(offset + 4..)?.get(..length)?;
    Some(Record { offset, kind, body })
}

/// The records of an image up to the first that passes its end.
pub fn records(image: &[u8]) -> impl Iterator<Item = Record<'_>> {
    let mut offset = 0;
    std::iter::from_fn(move || {
        let record = record(image, offset)?;
        offset += 4 + record.body.len();
        Some(record)
    })
}

/// Appends a record. Nothing, and it is left out, where the body is longer than a length field can say.
pub fn append(kind: u16, body: &[u8], image: &mut Vec<u8>) -> Option<()> {
    let length = u16::try_from(body.len()).ok()?;
    image.extend_from_slice(&length.to_le_bytes());
    image.extend_from_slice(&kind.to_le_bytes());
    image.extend_from_slice(body);
    Some(())
}

/// Two bytes, little-endian, if they are there.
pub fn two(bytes: &[u8], at: usize) -> Option<u16> {
    match bytes.get(at..at + 2) {
        Some(&[low, high]) => Some(u16::from_le_bytes([low, high])),
        _ => None,
    }
}

#[cfg(test)]
mod tests {
    use super::*;

    #[test]
    fn records_end_where_one_is_cut() {
        let mut image = Vec::new();
        assert_eq!(append(2, &[20, 0, 2], &mut image), Some(()));
        assert_eq!(append(0x0304, &[], &mut image), Some(()));
        assert_eq!(append(4, &[0; 65_536], &mut image), None);
        assert_eq!(image, [3, 0, 2, 0, 20, 0, 2, 0, 0, 4, 3]);
        let first = Record {
            offset: 0,
            kind: 2,
            body: &[20, 0, 2],
        };
        let second = Record {
            offset: 7,
            kind: 0x0304,
            body: &[],
        };
        assert_eq!(records(&image).collect::<Vec<_>>(), [first, second]);
        for cut in 7..11 {
            assert_eq!(records(&image[..cut]).collect::<Vec<_>>(), [first]);
        }
        for cut in 0..7 {
            assert_eq!(records(&image[..cut]).next(), None);
        }
        assert_eq!(header(&image[..4], 0), Some((3, 2)));
        assert_eq!(header(&image[..3], 0), None);
        assert_eq!(header(&image, usize::MAX), None);
    }
}
