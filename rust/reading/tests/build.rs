//! The packet builder of wish 2: the first paper's packets, the limits, the order of
//! the refusals, and the two statements that tie the builder to the judge.

use reading::*;

// ---------------------------------------------------------------- helpers

const G: [u8; 10] = [0x18, 0x01, 0xC0, 0x00, 0x00, 0x03, 0x00, 0xCE, 0x00, 0x14];
const ARM: [u8; 11] = [
    0x18, 0x01, 0xC0, 0x00, 0x00, 0x04, 0x00, 0xBB, 0x00, 0x64, 0x02,
];
const PAD: [u8; 12] = [
    0x18, 0x01, 0xC0, 0x00, 0x00, 0x05, 0x01, 0xD2, 0x00, 0x0A, 0x05, 0x00,
];

/// Room for any packet the builder can give: 10 + 255 + 127.
const ROOM: usize = 392;

fn own(apid: u16, count: u16, id: u16, arguments: &[u8], pads: u16) -> Fields {
    Fields {
        apid,
        count,
        id,
        arguments: arguments.to_vec(),
        pads,
        flags: 3,
        high_bit: false,
    }
}

/// From the packet's own fields, in room of the packet's own size.
fn again(packet: &[u8]) -> Result<Vec<u8>, u8> {
    let f = fields(packet).unwrap();
    build(f.apid, f.count, f.id, &f.arguments, f.pads, packet.len())
}

fn xor(bytes: &[u8]) -> u8 {
    bytes.iter().fold(0u8, |x, b| x ^ b)
}

/// The checksum byte set so that the XOR of all bytes is zero.
fn seal(packet: &mut [u8]) {
    packet[7] = 0;
    packet[7] = xor(packet);
}

struct Dice(u64);

impl Dice {
    fn next(&mut self) -> u64 {
        self.0 ^= self.0 << 13;
        self.0 ^= self.0 >> 7;
        self.0 ^= self.0 << 17;
        self.0.wrapping_mul(0x2545_F491_4F6C_DD1D)
    }
    fn below(&mut self, n: u64) -> u64 {
        (self.next() >> 16) % n
    }
    fn byte(&mut self) -> u8 {
        (self.next() >> 32) as u8
    }
    fn bytes(&mut self, n: u64) -> Vec<u8> {
        (0..n).map(|_| self.byte()).collect()
    }
    /// From 0 to `most`; often one of the two ends or next to them.
    fn edgy(&mut self, most: u64) -> u64 {
        match self.below(6) {
            0 => 0,
            1 => 1,
            2 => most,
            3 => most - 1,
            _ => self.below(most + 1),
        }
    }
    /// A packet that the judge accepts, made of noise: any APID, flags, count, high
    /// bit, id, arguments and pad bytes, with only what the judge asks for set.
    fn packet(&mut self) -> Vec<u8> {
        let arguments = self.edgy(255);
        let pads = self.edgy(127);
        let mut p = self.bytes(10 + arguments + pads);
        p[0] = 0x18 | (p[0] & 0x07);
        let field = ((p.len() - 7) as u16).to_be_bytes();
        p[4] = field[0];
        p[5] = field[1];
        p[6] = (p[6] & 0x80) | pads as u8;
        seal(&mut p);
        p
    }
    /// The same, brought into the form: "those flags, that bit, every pad byte zero".
    fn packet_in_form(&mut self) -> Vec<u8> {
        let mut p = self.packet();
        p[2] |= 0xC0;
        p[6] &= 0x7F;
        let end = p.len();
        let pads = usize::from(p[6]);
        for pad in &mut p[end - pads..] {
            *pad = 0;
        }
        seal(&mut p);
        p
    }
}

// ------------------------------------------------- packets byte for byte

#[test]
fn g_arm_and_pad_from_their_fields() {
    assert_eq!(build(1, 0, 20, &[], 0, 10), Ok(G.to_vec()));
    assert_eq!(build(1, 0, 100, &[2], 0, 11), Ok(ARM.to_vec()));
    assert_eq!(build(1, 0, 10, &[5], 1, 12), Ok(PAD.to_vec()));
    assert_eq!(fields(&G), Some(own(1, 0, 20, &[], 0)));
    assert_eq!(fields(&ARM), Some(own(1, 0, 100, &[2], 0)));
    assert_eq!(fields(&PAD), Some(own(1, 0, 10, &[5], 1)));
    for p in [&G[..], &ARM[..], &PAD[..]] {
        assert!(in_form(p));
        assert_eq!(again(p), Ok(p.to_vec()));
    }
}

#[test]
fn packets_worked_by_hand() {
    // All fields zero: 18 ^ C0 ^ 03 = DB.
    let zero = [0x18, 0x00, 0xC0, 0x00, 0x00, 0x03, 0x00, 0xDB, 0x00, 0x00];
    assert_eq!(build(0, 0, 0, &[], 0, ROOM), Ok(zero.to_vec()));
    // APID, count and id as large as they can be: 1F ^ FF ^ FF ^ FF ^ 03 = E3.
    let full = [0x1F, 0xFF, 0xFF, 0xFF, 0x00, 0x03, 0x00, 0xE3, 0xFF, 0xFF];
    assert_eq!(
        build(2_047, 16_383, 65_535, &[], 0, ROOM),
        Ok(full.to_vec())
    );
    // Each number's two bytes told apart: APID 0x523, count 0x1A2B, id 0x4C5D.
    // 1D ^ 23 ^ DA ^ 2B ^ 00 ^ 07 ^ 02 ^ 4C ^ 5D ^ 81 ^ 00 = 5A.
    let mixed = [
        0x1D, 0x23, 0xDA, 0x2B, 0x00, 0x07, 0x02, 0x5A, 0x4C, 0x5D, 0x81, 0x00, 0x00, 0x00,
    ];
    assert_eq!(
        build(0x523, 0x1A2B, 0x4C5D, &[0x81, 0x00], 2, ROOM),
        Ok(mixed.to_vec())
    );
    // A zero argument at the end is an argument, and no pad.
    assert_eq!(
        fields(&mixed),
        Some(own(0x523, 0x1A2B, 0x4C5D, &[0x81, 0x00], 2))
    );
    assert_ne!(
        build(0x523, 0x1A2B, 0x4C5D, &[0x81], 3, ROOM),
        Ok(mixed.to_vec())
    );
}

#[test]
fn no_arguments_and_255_with_no_pads_and_127() {
    let many: Vec<u8> = (1..=255u8).collect();
    // Arguments, pads, the length field's two bytes: 3 + arguments + pads.
    let cases: [(usize, u16, u8, u8); 4] = [
        (0, 0, 0x00, 0x03),
        (0, 127, 0x00, 0x82),
        (255, 0, 0x01, 0x02),
        (255, 127, 0x01, 0x81),
    ];
    for (n, pads, high, low) in cases {
        let args = &many[..n];
        let p = build(0x7AB, 0x2CDE, 0x1234, args, pads, ROOM).unwrap();
        assert_eq!(p.len(), 10 + n + usize::from(pads));
        assert_eq!(p[..4], [0x1F, 0xAB, 0xEC, 0xDE]);
        assert_eq!(p[4..7], [high, low, pads as u8]);
        assert_eq!(xor(&p), 0);
        assert_eq!(p[8..10], [0x12, 0x34]);
        assert_eq!(&p[10..10 + n], args);
        assert!(p[10 + n..].iter().all(|b| *b == 0));
        let j = judge(&p);
        assert_eq!((j.answer, j.id, j.count), (0, 0x1234, n));
        assert_eq!(fields(&p), Some(own(0x7AB, 0x2CDE, 0x1234, args, pads)));
        assert!(in_form(&p));
    }
}

// ------------------------------------------------- the refusals

#[test]
fn each_limit_and_one_past_it() {
    let many = [7u8; 256];
    assert!(build(2_047, 0, 0, &[], 0, ROOM).is_ok());
    assert_eq!(build(2_048, 0, 0, &[], 0, ROOM), Err(40));
    assert!(build(0, 16_383, 0, &[], 0, ROOM).is_ok());
    assert_eq!(build(0, 16_384, 0, &[], 0, ROOM), Err(41));
    assert!(build(0, 0, 0, &many[..255], 0, ROOM).is_ok());
    assert_eq!(build(0, 0, 0, &many, 0, ROOM), Err(42));
    assert!(build(0, 0, 0, &[], 127, ROOM).is_ok());
    assert_eq!(build(0, 0, 0, &[], 128, ROOM), Err(43));
    // The id has no limit of its own.
    assert!(build(0, 0, 65_535, &[], 0, ROOM).is_ok());
    // All four at their limits fill the largest packet.
    assert_eq!(
        build(2_047, 16_383, 65_535, &many[..255], 127, ROOM).map(|p| p.len()),
        Ok(392)
    );
    assert_eq!(
        build(2_047, 16_383, 65_535, &many[..255], 127, 391),
        Err(44)
    );
}

#[test]
fn every_value_of_each_number() {
    for n in 0..=65_535u16 {
        let [high, low] = n.to_be_bytes();
        let built = build(n, 0, 0, &[], 0, ROOM);
        if n <= 2_047 {
            let x = 0x18 ^ 0xC0 ^ 0x03 ^ high ^ low;
            let p = [0x18 | high, low, 0xC0, 0, 0, 3, 0, x, 0, 0];
            assert_eq!(built, Ok(p.to_vec()));
            assert_eq!(fields(&p), Some(own(n, 0, 0, &[], 0)));
        } else {
            assert_eq!(built, Err(40));
        }
        let built = build(0, n, 0, &[], 0, ROOM);
        if n <= 16_383 {
            let x = 0x18 ^ 0xC0 ^ 0x03 ^ high ^ low;
            let p = [0x18, 0, 0xC0 | high, low, 0, 3, 0, x, 0, 0];
            assert_eq!(built, Ok(p.to_vec()));
            assert_eq!(fields(&p), Some(own(0, n, 0, &[], 0)));
        } else {
            assert_eq!(built, Err(41));
        }
        let x = 0x18 ^ 0xC0 ^ 0x03 ^ high ^ low;
        let p = [0x18, 0, 0xC0, 0, 0, 3, 0, x, high, low];
        assert_eq!(build(0, 0, n, &[], 0, ROOM), Ok(p.to_vec()));
        assert_eq!(fields(&p), Some(own(0, 0, n, &[], 0)));
        let built = build(0, 0, 0, &[], n, ROOM);
        if n <= 127 {
            let p = built.unwrap();
            assert_eq!(p.len(), 10 + usize::from(n));
            assert_eq!(fields(&p), Some(own(0, 0, 0, &[], n)));
        } else {
            assert_eq!(built, Err(43));
        }
    }
}

#[test]
fn the_number_of_arguments_is_not_cut() {
    let many = vec![9u8; 66_000];
    for n in [256usize, 257, 382, 511, 512, 65_535, 65_536, 65_537, 65_791] {
        assert_eq!(build(1, 0, 20, &many[..n], 0, 70_000), Err(42));
    }
}

#[test]
fn refusals_in_their_order() {
    let many = [7u8; 256];
    // Every set of the five breaches, so every pair as well: the first one answers.
    for set in 0..32u8 {
        let breaks = |k: u8| set & (1 << k) != 0;
        for (bad_apid, bad_count, bad_pads) in [
            (2_048u16, 16_384u16, 128u16),
            (65_535, 65_535, 65_535),
            (4_096, 32_768, 256),
        ] {
            let apid = if breaks(0) { bad_apid } else { 2_047 };
            let count = if breaks(1) { bad_count } else { 16_383 };
            let args = if breaks(2) { &many[..] } else { &many[..255] };
            let pads = if breaks(3) { bad_pads } else { 127 };
            let rooms = if breaks(4) {
                [0usize, 9, 391]
            } else {
                [392, 100_000, usize::MAX]
            };
            for room in rooms {
                let built = build(apid, count, 20, args, pads, room);
                if set == 0 {
                    assert_eq!(built.map(|p| p.len()), Ok(392));
                } else {
                    assert_eq!(built, Err(40 + set.trailing_zeros() as u8));
                }
            }
        }
    }
}

#[test]
fn room_exact_and_one_short() {
    let many: Vec<u8> = (0..255u8).collect();
    for n in [0usize, 1, 2, 100, 254, 255] {
        for pads in [0u16, 1, 2, 64, 126, 127] {
            let size = 10 + n + usize::from(pads);
            let args = &many[..n];
            let built = build(1, 2, 3, args, pads, size);
            assert_eq!(built.as_ref().map(|p| p.len()), Ok(size));
            assert_eq!(build(1, 2, 3, args, pads, size - 1), Err(44));
            assert_eq!(build(1, 2, 3, args, pads, 0), Err(44));
            // More room, the same packet.
            for room in [size + 1, 65_536, usize::MAX] {
                assert_eq!(build(1, 2, 3, args, pads, room), built);
            }
        }
    }
    for room in 0..=30usize {
        let built = build(1, 0, 10, &[5], 1, room);
        if room < 12 {
            assert_eq!(built, Err(44));
        } else {
            assert_eq!(built, Ok(PAD.to_vec()));
        }
    }
}

// ------------------------------------------------- builder and judge

#[test]
fn what_it_builds_the_judge_accepts() {
    let mut dice = Dice(0x9E37_79B9_7F4A_7C15);
    for _ in 0..4000 {
        let apid = dice.edgy(2_047) as u16;
        let count = dice.edgy(16_383) as u16;
        let id = dice.edgy(65_535) as u16;
        let n = dice.edgy(255);
        let args = dice.bytes(n);
        let pads = dice.edgy(127) as u16;
        let size = 10 + args.len() + usize::from(pads);
        let p = build(apid, count, id, &args, pads, size).unwrap();
        // "the judge of 01 accepts with the same id and the same arguments"
        let j = judge(&p);
        assert_eq!((j.answer, j.id, j.count), (0, id, args.len()));
        let (offset, length) = arguments(&p);
        assert_eq!(&p[offset..offset + length], &args[..]);
        // "sequence flags both set, high bit of the function code zero"
        assert_eq!(p[2] & 0xC0, 0xC0);
        assert_eq!(u16::from(p[6]), pads);
        // "zero pad bytes"
        assert!(p[offset + length..].iter().all(|b| *b == 0));
        assert_eq!(fields(&p), Some(own(apid, count, id, &args, pads)));
        assert!(in_form(&p));
        assert_eq!(again(&p), Ok(p));
    }
}

#[test]
fn a_packet_in_form_is_built_again_byte_for_byte() {
    let mut dice = Dice(0xD1B5_4A32_D192_ED03);
    for _ in 0..4000 {
        let p = dice.packet_in_form();
        assert_eq!(judge(&p).answer, 0);
        assert!(in_form(&p));
        assert_eq!(again(&p), Ok(p));
    }
}

#[test]
fn what_the_fields_say() {
    // The bits taken one at a time, from the left, out of any accepted packet.
    let number = |p: &[u8], from: usize, bits: usize| {
        (from..from + bits).fold(0u16, |x, k| x << 1 | u16::from(p[k / 8] >> (7 - k % 8) & 1))
    };
    let mut dice = Dice(0x0123_4567_89AB_CDEF);
    for _ in 0..3000 {
        let p = dice.packet();
        let f = fields(&p).unwrap();
        assert_eq!(f.apid, number(&p, 5, 11));
        assert_eq!(u16::from(f.flags), number(&p, 16, 2));
        assert_eq!(f.count, number(&p, 18, 14));
        assert_eq!(u16::from(f.high_bit), number(&p, 48, 1));
        assert_eq!(f.pads, number(&p, 49, 7));
        assert_eq!(f.id, number(&p, 64, 16));
        assert_eq!(f.arguments, p[10..p.len() - usize::from(f.pads)]);
    }
}

#[test]
fn other_flags_high_bit_or_a_pad_byte_is_not_in_form() {
    let mut dice = Dice(0xA076_1D64_78BD_642F);
    let mut pads_seen = 0usize;
    for _ in 0..600 {
        let p = dice.packet_in_form();
        assert!(in_form(&p));
        let own = fields(&p).unwrap();
        let mut others: Vec<(Vec<u8>, Fields)> = Vec::new();
        // "those flags"
        for flags in 0..3u8 {
            let mut q = p.clone();
            q[2] = (q[2] & 0x3F) | (flags << 6);
            let mut said = own.clone();
            said.flags = flags;
            others.push((q, said));
        }
        // "that bit"
        let mut q = p.clone();
        q[6] |= 0x80;
        let mut said = own.clone();
        said.high_bit = true;
        others.push((q, said));
        // "every pad byte zero": the first, the last and one between.
        let pads = usize::from(own.pads);
        if pads > 0 {
            pads_seen += 1;
            let start = p.len() - pads;
            let between = start + dice.below(pads as u64) as usize;
            for at in [start, between, p.len() - 1] {
                let mut q = p.clone();
                q[at] = 1 << dice.below(8);
                others.push((q, own.clone()));
            }
        }
        for (mut q, said) in others {
            seal(&mut q);
            // The judge doesn't mind; the fields are the same but for the one changed.
            let j = judge(&q);
            assert_eq!((j.answer, j.id, j.count), (0, own.id, own.arguments.len()));
            assert_eq!(fields(&q), Some(said));
            assert!(!in_form(&q));
            // From such fields the builder gives the packet that is in form.
            assert_eq!(again(&q), Ok(p.clone()));
        }
    }
    assert!(pads_seen > 300);
    // A nonzero byte just before the pads is an argument, or the id, and in form.
    let p = build(1, 0, 0x00FF, &[], 3, ROOM).unwrap();
    assert!(in_form(&p));
    let p = build(1, 0, 0, &[0xFF], 3, ROOM).unwrap();
    assert!(in_form(&p));
}

#[test]
fn in_form_just_when_built_again() {
    let mut dice = Dice(0xE703_7ED1_A0B4_28DB);
    let (mut inside, mut outside) = (0usize, 0usize);
    for _ in 0..4000 {
        let mut p = dice.packet_in_form();
        // One byte changed, of the flags, the function code's high bit or the rest.
        match dice.below(4) {
            0 => p[2] = dice.byte(),
            1 => p[6] ^= dice.byte() & 0x80,
            2 => {
                let at = 8 + dice.below(p.len() as u64 - 8) as usize;
                p[at] = dice.byte();
            }
            _ => {}
        }
        seal(&mut p);
        assert_eq!(judge(&p).answer, 0);
        let same = again(&p) == Ok(p.clone());
        assert_eq!(in_form(&p), same);
        if same {
            inside += 1;
        } else {
            outside += 1;
        }
    }
    assert!(inside > 1000 && outside > 800, "{} {}", inside, outside);
}

#[test]
fn a_refused_packet_has_no_fields_and_no_form() {
    let mut refused: Vec<Vec<u8>> = vec![Vec::new()];
    for p in [&G[..], &ARM[..], &PAD[..]] {
        // Cut short, one byte longer, each bit turned.
        for end in 0..p.len() {
            refused.push(p[..end].to_vec());
        }
        refused.push([p, &[0]].concat());
        for at in 0..p.len() {
            for bit in 0..8 {
                let mut q = p.to_vec();
                q[at] ^= 1 << bit;
                refused.push(q);
            }
        }
        // Version, type and secondary header with the XOR set right again.
        for bit in [0x80u8, 0x40, 0x20, 0x10, 0x08] {
            let mut q = p.to_vec();
            q[0] ^= bit;
            seal(&mut q);
            refused.push(q);
        }
        // More pads than the data has.
        let mut q = p.to_vec();
        q[6] = 3;
        seal(&mut q);
        refused.push(q);
    }
    // 256 arguments.
    let mut q = vec![0u8; 266];
    q[..7].copy_from_slice(&[0x18, 0x01, 0xC0, 0x00, 0x01, 0x03, 0x00]);
    seal(&mut q);
    assert_eq!(judge(&q).answer, 29);
    refused.push(q);
    for p in &refused {
        assert_ne!(judge(p).answer, 0);
        assert_eq!(fields(p), None);
        assert!(!in_form(p));
    }
}
