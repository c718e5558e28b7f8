//! CRC-32, the check value of the saved forms: that of Ethernet and zlib, so that other tools can make and check one.

const POLYNOMIAL: u32 = 0xEDB8_8320;

/// What a byte comes to, for each byte.
const TABLE: [u32; 256] = table();

const fn table() -> [u32; 256] {
    let mut table = [0; 256];
    let mut byte = 0;
    while byte < table.len() {
        let mut rest = byte as u32;
        let mut bit = 0;
        while bit < 8 {
            let carry = if rest & 1 == 1 { POLYNOMIAL } else { 0 };
            rest = (rest >> 1) ^ carry;
            bit += 1;
        }
        table[byte] = rest;
        byte += 1;
    }
    table
}

/// The check value of some bytes.
pub fn crc32(bytes: &[u8]) -> u32 {
    !bytes.iter().fold(!0, |crc: u32, byte| {
        let [low, ..] = crc.to_le_bytes();
        (crc >> 8) ^ TABLE[usize::from(low ^ byte)]
    })
}

#[cfg(test)]
mod tests {
    use super::*;

    #[test]
    fn known_values() {
        assert_eq!(crc32(b"123456789"), 0xCBF4_3926);
        assert_eq!(crc32(b""), 0);
        assert_eq!(crc32(b"a"), 0xE8B7_BE43);
        assert_eq!(crc32(b"abc"), 0x3524_41C2);
        let fox = b"The quick brown fox jumps over the lazy dog";
        assert_eq!(crc32(fox), 0x414F_A339);
        assert_eq!(crc32(&[0; 32]), 0x190A_55AD);
        assert_eq!(crc32(&[0xFF; 32]), 0xFF6C_AB0B);
        let rising: Vec<u8> = (0..32).collect();
        assert_eq!(crc32(&rising), 0x9126_7E8A);
    }

    /// Bytes with their check value behind them come to one number, whatever the bytes: a property of every CRC.
    #[test]
    fn the_check_value_behind_its_bytes() {
        for length in 0..300 {
            let mut bytes: Vec<u8> = (0..length).map(|k| (k * k + 7) as u8).collect();
            bytes.extend(crc32(&bytes).to_le_bytes());
            assert_eq!(crc32(&bytes), 0x2144_DF1C);
        }
    }
}
