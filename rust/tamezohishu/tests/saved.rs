//! The saved forms: what stands where, what comes back, and what is refused. The crate `differential` makes both forms by code
//! of its own, and compares them on made-up states.

use tamezohishu::*;

const C: [u8; 42] = [
    0x06, 0x00, 0x01, 0x00, 0x01, 0x00, 0x02, 0x00, 0x64, 0x00, //
    0x03, 0x00, 0x02, 0x00, 0x0A, 0x00, 0x01, //
    0x03, 0x00, 0x02, 0x00, 0x14, 0x00, 0x02, //
    0x02, 0x00, 0x03, 0x00, 0x14, 0x00, //
    0x08, 0x00, 0x04, 0x00, 0x07, 0x00, 0x0A, 0x00, 0x01, 0x01, 0x01, 0xAA,
];
const ARM: &[u8] = b"\x18\x01\xC0\x00\x00\x04\x00\xBB\x00\x64\x02";

/// Where the fields of both forms begin, and those of a state behind the check value of its configuration.
const FIELDS: usize = 4;
const STATE_FIELDS: usize = 8;

fn loaded() -> (Configuration, State) {
    Configuration::load(&C).expect("C loads")
}

/// A state that has been through something: armed, with ticks, counts and a latched row.
fn used() -> (Configuration, State) {
    let (configuration, mut state) = loaded();
    let mut out = [0; ROOM];
    state.packet(&configuration, ARM, &mut out);
    state.fault(&configuration, 7, &mut out);
    (configuration, state)
}

/// CRC-32 bit by bit.
fn crc32(bytes: &[u8]) -> u32 {
    let mut crc = u32::MAX;
    for byte in bytes {
        crc ^= u32::from(*byte);
        for _ in 0..8 {
            crc = (crc >> 1) ^ (0xEDB8_8320 & (crc & 1).wrapping_neg());
        }
    }
    !crc
}

/// The bytes with the check value that fits them, as whoever makes a form by hand would have it.
fn sealed<const N: usize>(mut bytes: [u8; N]) -> [u8; N] {
    let check = crc32(&bytes[..N - 4]);
    bytes[N - 4..].copy_from_slice(&check.to_le_bytes());
    bytes
}

/// Hands both forms to a test, each with what takes it.
fn each_form(test: impl Fn(&[u8], &dyn Fn(&[u8]) -> Result<(), SavedError>)) {
    let (configuration, state) = used();
    test(&state.to_bytes(&configuration), &|bytes| {
        State::from_bytes(&configuration, bytes).map(|_| ())
    });
    test(&configuration.to_bytes(), &|bytes| {
        Configuration::from_bytes(bytes).map(|_| ())
    });
}

/// The bytes with some bits flipped, from the given one on; bit 0 of a byte comes first, as CRC-32 takes them.
fn flipped(bytes: &[u8], from: usize, mut pattern: u32) -> Vec<u8> {
    let mut other = bytes.to_vec();
    let mut bit = from;
    while pattern != 0 {
        other[bit / 8] ^= ((pattern & 1) as u8) << (bit % 8);
        pattern >>= 1;
        bit += 1;
    }
    other
}

/// What may be said of damage, by the place where it begins: of the mark, that it is another form.
fn told_of_damage(from: usize) -> SavedError {
    match from / 8 {
        0..=2 => SavedError::OtherForm,
        _ => SavedError::Damaged,
    }
}

#[test]
fn what_was_saved_comes_back() {
    let (configuration, state) = used();
    let bytes = state.to_bytes(&configuration);
    assert_eq!(bytes[STATE_FIELDS..][..7], [1, 2, 0, 1, 0, 0, 0]);
    assert_eq!(bytes[STATE_FIELDS + 17], 2);
    assert_eq!(State::from_bytes(&configuration, &bytes), Ok(state));
    let kept = Configuration::from_bytes(&configuration.to_bytes());
    assert_eq!(kept, Ok(configuration));
}

/// Every byte of the fields has a place of its own, and takes any number.
#[test]
fn every_place_comes_back() {
    let (configuration, state) = used();
    for at in STATE_FIELDS..STATE_BYTES - 4 {
        let mut other = state.to_bytes(&configuration);
        other[at] ^= 0x5A;
        let other = sealed(other);
        let taken = State::from_bytes(&configuration, &other).expect("its check value fits");
        assert_eq!(taken.to_bytes(&configuration), other);
    }
    for at in FIELDS..CONFIGURATION_BYTES - 4 {
        let mut other = configuration.to_bytes();
        other[at] ^= 0x5A;
        let other = sealed(other);
        let taken = Configuration::from_bytes(&other).expect("its check value fits");
        assert_eq!(taken.to_bytes(), other);
    }
}

#[test]
fn every_bit_that_is_flipped_is_found() {
    each_form(|bytes, take| {
        assert_eq!(take(bytes), Ok(()));
        for bit in 0..8 * bytes.len() {
            assert_eq!(take(&flipped(bytes, bit, 1)), Err(told_of_damage(bit)));
        }
    });
}

/// Bursts of 2 to 32 bits, the first and the last flipped, and between them all, none or some.
#[test]
fn every_burst_is_found() {
    each_form(|bytes, take| {
        let bits = 8 * bytes.len();
        // A configuration has so many places that not each gets every length.
        let step = bits / STATE_BYTES / 8;
        let mut some: u32 = 1;
        for from in 0..bits {
            for length in (2 + from % step..=32.min(bits - from)).step_by(step) {
                some = some.wrapping_mul(1_664_525).wrapping_add(1_013_904_223);
                let all = u32::MAX >> (32 - length);
                let ends = 1 << (length - 1) | 1;
                for between in [0, all, some & all] {
                    let other = flipped(bytes, from, ends | between);
                    assert_eq!(take(&other), Err(told_of_damage(from)));
                }
            }
        }
    });
}

#[test]
fn every_cut_is_told() {
    each_form(|bytes, take| {
        let of = bytes.len();
        for n in 0..of {
            assert_eq!(take(&bytes[..n]), Err(SavedError::Cut { bytes: n, of }));
        }
        let longer = [bytes, &[0]].concat();
        let bytes = of + 1;
        assert_eq!(take(&longer), Err(SavedError::TooLong { bytes, of }));
    });
    let cut = SavedError::Cut { bytes: 60, of: 61 };
    assert_eq!(cut.to_string(), "saved form cut: 60 bytes of 61");
}

/// One that happens to fit: every step would take it.
#[test]
fn a_state_of_another_configuration() {
    let (configuration, state) = used();
    let mut image = C;
    image[16] = 3;
    let (other, _) = Configuration::load(&image).expect("a good image");
    let mut fits = state.clone();
    assert_eq!(fits.tick(&other).outcome, Outcome::Tick);

    let bytes = state.to_bytes(&configuration);
    let refused = State::from_bytes(&other, &bytes);
    assert_eq!(refused, Err(SavedError::OtherConfiguration));
    assert_eq!(
        SavedError::OtherConfiguration.to_string(),
        "saved state of another configuration"
    );
    // Its configuration is the one with these fields, loaded again or saved too.
    let (again, _) = loaded();
    assert_eq!(State::from_bytes(&again, &bytes).as_ref(), Ok(&state));
    let kept = Configuration::from_bytes(&configuration.to_bytes()).expect("as it was saved");
    assert_eq!(State::from_bytes(&kept, &bytes), Ok(state));
    // Damage is damage under another configuration too.
    let damaged = State::from_bytes(&other, &flipped(&bytes, 4 * 8, 1));
    assert_eq!(damaged, Err(SavedError::Damaged));
}

#[test]
fn other_forms_and_versions() {
    let (configuration, state) = used();
    let bytes = state.to_bytes(&configuration);
    let taken = |bytes: &[u8]| State::from_bytes(&configuration, bytes).map(|_| ());
    // One for the other, and a state as it was saved before there was a head.
    assert_eq!(taken(&configuration.to_bytes()), Err(SavedError::OtherForm));
    assert_eq!(
        Configuration::from_bytes(&bytes),
        Err(SavedError::OtherForm)
    );
    let old = &bytes[STATE_FIELDS..][..49];
    assert_eq!(taken(old), Err(SavedError::OtherForm));
    assert_eq!(taken(&[0; STATE_BYTES]), Err(SavedError::OtherForm));

    // A version of its own length is told by its number, and damage to the number is damage.
    let mut other = bytes;
    other[3] = 2;
    assert_eq!(taken(&other), Err(SavedError::Damaged));
    assert_eq!(taken(&sealed(other)), Err(SavedError::OtherVersion(2)));
    let mut longer = [7; STATE_BYTES + 9];
    longer[..4].copy_from_slice(&other[..4]);
    assert_eq!(taken(&sealed(longer)), Err(SavedError::OtherVersion(2)));
    let of = STATE_BYTES;
    assert_eq!(
        taken(&longer),
        Err(SavedError::TooLong { bytes: of + 9, of })
    );
}

/// A check value that fits says nothing about the rules: the library judges, at each step.
#[test]
fn a_state_that_breaks_a_rule_is_answered_20() {
    let (configuration, state) = loaded();
    let mut bytes = state.to_bytes(&configuration);
    bytes[STATE_FIELDS] = 2;
    let broken = State::from_bytes(&configuration, &sealed(bytes)).expect("its check value fits");
    let mut state = broken.clone();
    assert_eq!(state.tick(&configuration).outcome, Outcome::BadState);
    assert_eq!(state, broken);
    let piece = state.resume(&configuration, &[], &mut []);
    assert_eq!(
        (piece.stop, piece.read, piece.count),
        (Stop::BadState, 0, 0)
    );

    // A count far beyond its table: steps answer, and the tables can still be looked at.
    let mut bytes = configuration.to_bytes();
    bytes[FIELDS + 6..][..8].fill(255);
    let broken = Configuration::from_bytes(&sealed(bytes)).expect("its check value fits");
    let (_, mut state) = loaded();
    assert_eq!(state.tick(&broken).outcome, Outcome::BadState);
    assert_eq!(broken.routes().count(), ROUTES);
}

/// 20 comes where a rule breaks, and nowhere else. This damage keeps the rules, and the check value finds it.
#[test]
fn damage_that_keeps_the_rules_is_found() {
    let (configuration, state) = loaded();
    let good = state.to_bytes(&configuration);
    // Armed, with no ticks that remain, as after an arm command with timeout 0; another count of accepted packets.
    for (at, bit) in [(STATE_FIELDS, 1), (STATE_FIELDS + 3, 0x80)] {
        let mut bytes = good;
        bytes[at] ^= bit;
        let found = State::from_bytes(&configuration, &bytes);
        assert_eq!(found, Err(SavedError::Damaged));
        let mut unseen = State::from_bytes(&configuration, &sealed(bytes)).expect("it fits");
        assert_eq!(unseen.tick(&configuration).outcome, Outcome::Tick);
        assert_ne!(unseen, state);
    }
}

/// Configuration C and the state right after loading: bytes that other programs may rely on.
#[test]
fn the_forms_of_configuration_c() {
    let (configuration, state) = loaded();
    let mut expected = [0; STATE_BYTES];
    expected[..8].copy_from_slice(&[0x54, 0x5A, 0x53, 1, 0x23, 0x19, 0x46, 0x20]);
    // Unarmed, no ticks, seven counts of 0; the first fault row enabled.
    expected[25] = 1;
    expected[57..].copy_from_slice(&[0xAE, 0x97, 0xAE, 0xA0]);
    assert_eq!(state.to_bytes(&configuration), expected);

    let mut expected = [0; CONFIGURATION_BYTES];
    expected[..10].copy_from_slice(&[0x54, 0x5A, 0x43, 1, 1, 0, 2, 0, 100, 0]);
    // Routes: their count, ids and destinations.
    (expected[10], expected[18], expected[20]) = (2, 10, 20);
    (expected[274], expected[275]) = (1, 2);
    // Protected ids: their count and ids.
    (expected[402], expected[410]) = (1, 20);
    // Fault rows: their count, ids, responses, latching, argument counts and arguments.
    (expected[474], expected[482], expected[546]) = (1, 7, 10);
    (expected[610], expected[642], expected[674]) = (1, 1, 0xAA);
    expected[1186..].copy_from_slice(&[0x23, 0x19, 0x46, 0x20]);
    assert_eq!(configuration.to_bytes(), expected);
}
