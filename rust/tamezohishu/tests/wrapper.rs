//! What the wrapper adds to the library: parts of the caller's packet, errors, replies; the saved forms stand in `saved.rs`.
//! What the library answers is compared with an independent reading in the crate `differential`.

use tamezohishu::*;

const C: [u8; 42] = [
    0x06, 0x00, 0x01, 0x00, 0x01, 0x00, 0x02, 0x00, 0x64, 0x00, //
    0x03, 0x00, 0x02, 0x00, 0x0A, 0x00, 0x01, //
    0x03, 0x00, 0x02, 0x00, 0x14, 0x00, 0x02, //
    0x02, 0x00, 0x03, 0x00, 0x14, 0x00, //
    0x08, 0x00, 0x04, 0x00, 0x07, 0x00, 0x0A, 0x00, 0x01, 0x01, 0x01, 0xAA,
];
const G: &[u8] = b"\x18\x01\xC0\x00\x00\x03\x00\xCE\x00\x14";
const ARM: &[u8] = b"\x18\x01\xC0\x00\x00\x04\x00\xBB\x00\x64\x02";
const PAD: &[u8] = b"\x18\x01\xC0\x00\x00\x05\x01\xD2\x00\x0A\x05\x00";

fn loaded() -> (Configuration, State) {
    Configuration::load(&C).expect("C loads")
}

#[test]
fn the_judge_and_the_part() {
    assert_eq!(judge(PAD), Ok(Judged { id: 10, count: 1 }));
    assert_eq!(arguments(PAD), [5]);
    assert!(std::ptr::eq(arguments(PAD), &PAD[10..11]));
    assert!(std::ptr::eq(arguments(G), &G[10..10]));
    assert_eq!(judge(&G[..9]), Err(Refusal::BadSize));
    assert!(std::ptr::eq(arguments(&G[..9]), &G[..0]));
    assert_eq!(judge(&[]), Err(Refusal::Short));
    assert_eq!(arguments(&[]), []);
}

/// Their fields as document 01's bytes have them.
const G_FIELDS: Fields = Fields {
    apid: 1,
    count: 0,
    id: 20,
    arguments: &[],
    pads: 0,
};

#[test]
fn a_packet_from_its_fields() {
    let arm = Fields {
        id: 100,
        arguments: &[2],
        ..G_FIELDS
    };
    let pad = Fields {
        id: 10,
        arguments: &[5],
        pads: 1,
        ..G_FIELDS
    };
    assert_eq!(build(&G_FIELDS).as_deref(), Ok(G));
    assert_eq!(build(&arm).as_deref(), Ok(ARM));
    assert_eq!(build(&pad).as_deref(), Ok(PAD));
    let longest = Fields {
        arguments: &[0xFF; 255],
        pads: 127,
        ..G_FIELDS
    };
    assert_eq!(build(&longest).map(|p| p.len()), Ok(LONGEST_BUILT));
}

#[test]
fn a_packet_into_a_slice() {
    let mut out = [0xEE; 12];
    assert_eq!(build_into(&G_FIELDS, &mut out), Ok(10));
    assert_eq!((&out[..10], &out[10..]), (G, &[0xEE; 2][..]));
    let mut exact = [0xEE; 10];
    assert_eq!(build_into(&G_FIELDS, &mut exact), Ok(10));
    assert_eq!(exact, G);
    let mut short = [0xEE; 9];
    assert_eq!(
        build_into(&G_FIELDS, &mut short),
        Err(BuildRefusal::OutputTooSmall)
    );
    assert_eq!(short, [0xEE; 9]);
    assert_eq!(
        build_into(&G_FIELDS, &mut []),
        Err(BuildRefusal::OutputTooSmall)
    );
}

#[test]
fn fields_that_are_refused() {
    let all_wrong = Fields {
        apid: 2_048,
        count: 16_384,
        id: 20,
        arguments: &[0; 256],
        pads: 128,
    };
    let refusal = |fields: &Fields| build_into(fields, &mut [0; 5]).expect_err("refused");
    assert_eq!(refusal(&all_wrong), BuildRefusal::ApidTooHigh);
    let fields = Fields {
        apid: 2_047,
        ..all_wrong
    };
    assert_eq!(refusal(&fields), BuildRefusal::CountTooHigh);
    let fields = Fields {
        count: 16_383,
        ..fields
    };
    assert_eq!(refusal(&fields), BuildRefusal::TooManyArguments);
    let fields = Fields {
        arguments: &[0; 255],
        ..fields
    };
    assert_eq!(refusal(&fields), BuildRefusal::TooManyPads);
    let fields = Fields {
        pads: 127,
        ..fields
    };
    assert_eq!(refusal(&fields), BuildRefusal::OutputTooSmall);
    assert_eq!(refusal(&fields).to_string(), "output too small");
}

#[test]
fn a_configuration_and_its_tables() {
    let (configuration, state) = loaded();
    assert_eq!(configuration.ground_source(), 1);
    assert_eq!(configuration.fault_source(), 2);
    assert_eq!(configuration.own_base(), 100);
    let routes: Vec<_> = configuration
        .routes()
        .map(|r| (r.id, r.destination))
        .collect();
    assert_eq!(routes, [(10, 1), (20, 2)]);
    assert_eq!(configuration.protected_ids(), [20]);
    let rows: Vec<_> = configuration.fault_rows().collect();
    let row = FaultRow {
        fault: 7,
        response: 10,
        latching: true,
        arguments: &[0xAA],
    };
    assert_eq!(rows, [row]);
    let states: Vec<_> = state.fault_states(&configuration).collect();
    assert_eq!(states, [FaultState::Enabled]);
}

#[test]
fn a_refused_image() {
    let error = Configuration::load(&C[..41]).expect_err("a cut image");
    assert_eq!((error.refusal, error.offset), (LoadRefusal::PastEnd, 30));
    assert_eq!(
        error.to_string(),
        "record at byte 30: header or body passes the end of the image"
    );
    let error = Configuration::load(&[]).expect_err("an empty image");
    assert_eq!((error.refusal, error.offset), (LoadRefusal::Empty, 0));
    let mut out = [1; 300];
    assert_eq!(replay(&[], &[], &mut out), Err(error));
    assert_eq!(out, [1; 300]);
}

#[test]
fn no_bytes_at_all() {
    let (configuration, mut state) = loaded();
    let before = state.clone();
    let answer = state.packet(&configuration, &[], &mut []);
    assert_eq!(answer.outcome, Outcome::NoRoom);
    let answer = state.fault(&configuration, 7, &mut []);
    assert_eq!(answer.outcome, Outcome::NoRoom);
    assert_eq!(state, before);
    let answer = state.packet(&configuration, &[], &mut [0; ROOM]);
    assert_eq!(answer.outcome, Outcome::Short);
    assert_eq!(replay(&C, &[], &mut []).map(|r| r.stop), Ok(Stop::End));
}

#[test]
fn a_bad_record_stops_with_its_own_number() {
    let tick = [0, 0, 17, 0];
    for (bad, stop) in [
        (&[0, 0, 17][..], Stop::Cut),
        (&[2, 0, 18, 0, 7], Stop::Cut),
        (&[0, 0, 19, 0], Stop::OtherKind),
        (&[1, 0, 17, 0, 0], Stop::WrongLength),
        (&[1, 0, 18, 0, 7], Stop::WrongLength),
    ] {
        let mut out = [0; 2 * REPLY_ROOM];
        let replay = replay(&C, &[&tick, bad].concat(), &mut out).expect("C loads");
        assert_eq!((replay.stop, replay.read, replay.count), (stop, 4, 1));
        assert!(replay.stop.is_bad_record());
    }
}

#[test]
fn a_recording_whole_and_in_two_pieces() {
    let mut recording = Recording::new();
    recording.packet(PAD).expect("a short packet");
    recording.tick();
    recording.fault(7);
    assert_eq!(recording.packet(&[0; 65_536]), Err(TooLong));
    let bytes = recording.as_bytes();
    assert_eq!(bytes.len(), 16 + 4 + 6);

    let mut out = [0; 3 * REPLY_ROOM];
    let whole = replay(&C, bytes, &mut out).expect("C loads");
    assert_eq!((whole.stop, whole.read, whole.count), (Stop::End, 26, 3));
    let replies: Vec<_> = whole.replies().collect();
    assert_eq!(replies.len(), 3);
    assert_eq!(replies[0].answer.to_string(), "10 10 1 6");
    assert_eq!(replies[0].command, [0, 1, 0, 10, 1, 5]);
    assert_eq!(replies[1].answer.outcome, Outcome::Tick);
    assert_eq!(replies[1].command, []);
    assert_eq!(replies[2].command, [0, 2, 0, 10, 1, 0xAA]);
    assert_eq!(whole.counters.dispatched, 2);

    let (configuration, mut state) = loaded();
    let mut small = [0; REPLY_ROOM];
    let first = state.resume(&configuration, bytes, &mut small);
    assert_eq!(
        (first.stop, first.read, first.count),
        (Stop::OutputFull, 16, 1)
    );
    assert_eq!(first.replies().collect::<Vec<_>>(), replies[..1]);
    let read = first.read;
    let mut rest = [0; 2 * REPLY_ROOM];
    let second = state.resume(&configuration, &bytes[read..], &mut rest);
    assert_eq!((second.stop, second.read, second.count), (Stop::End, 10, 2));
    assert_eq!(second.replies().collect::<Vec<_>>(), replies[1..]);
    assert_eq!(state.counters(), whole.counters);
}
