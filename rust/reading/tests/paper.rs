//! The paper's cases, one by one, then its limits and its tables.

use reading::*;
use std::collections::BTreeSet;

// ---------------------------------------------------------------- helpers

/// "Configuration C, 42 bytes, hex"
const C: [u8; 42] = [
    0x06, 0x00, 0x01, 0x00, 0x01, 0x00, 0x02, 0x00, 0x64, 0x00, //
    0x03, 0x00, 0x02, 0x00, 0x0A, 0x00, 0x01, //
    0x03, 0x00, 0x02, 0x00, 0x14, 0x00, 0x02, //
    0x02, 0x00, 0x03, 0x00, 0x14, 0x00, //
    0x08, 0x00, 0x04, 0x00, 0x07, 0x00, 0x0A, 0x00, 0x01, 0x01, 0x01, 0xAA,
];
const G: [u8; 10] = [0x18, 0x01, 0xC0, 0x00, 0x00, 0x03, 0x00, 0xCE, 0x00, 0x14];
const ARM: [u8; 11] = [
    0x18, 0x01, 0xC0, 0x00, 0x00, 0x04, 0x00, 0xBB, 0x00, 0x64, 0x02,
];
const PAD: [u8; 12] = [
    0x18, 0x01, 0xC0, 0x00, 0x00, 0x05, 0x01, 0xD2, 0x00, 0x0A, 0x05, 0x00,
];

const MARK: u8 = 0xEE;

fn rec(kind: u16, body: &[u8]) -> Vec<u8> {
    let mut bytes = Vec::new();
    bytes.extend_from_slice(&(body.len() as u16).to_le_bytes());
    bytes.extend_from_slice(&kind.to_le_bytes());
    bytes.extend_from_slice(body);
    bytes
}

fn basics(ground: u16, fault: u16, base: u16) -> Vec<u8> {
    let mut body = Vec::new();
    body.extend_from_slice(&ground.to_le_bytes());
    body.extend_from_slice(&fault.to_le_bytes());
    body.extend_from_slice(&base.to_le_bytes());
    rec(1, &body)
}

fn route(id: u16, dest: u8) -> Vec<u8> {
    let id = id.to_le_bytes();
    rec(2, &[id[0], id[1], dest])
}

fn protect(id: u16) -> Vec<u8> {
    rec(3, &id.to_le_bytes())
}

fn row(fault: u16, response: u16, start: u8, latching: u8, args: &[u8]) -> Vec<u8> {
    let mut body = Vec::new();
    body.extend_from_slice(&fault.to_le_bytes());
    body.extend_from_slice(&response.to_le_bytes());
    body.push(start);
    body.push(latching);
    body.push(args.len() as u8);
    body.extend_from_slice(args);
    rec(4, &body)
}

fn join(parts: &[Vec<u8>]) -> Vec<u8> {
    parts.concat()
}

/// The checksum byte set so that the XOR of all bytes is zero.
fn seal(packet: &mut [u8]) {
    packet[7] = 0;
    let xor = packet.iter().fold(0u8, |x, b| x ^ b);
    packet[7] = xor;
}

/// A well-formed packet; its pads are not zero.
fn packet(id: u16, args: &[u8], pads: u8) -> Vec<u8> {
    let mut p = vec![0x18, 0x01, 0xC0, 0x00, 0, 0, pads, 0];
    p.extend_from_slice(&id.to_be_bytes());
    p.extend_from_slice(args);
    for k in 0..pads {
        p.push(0x51u8.wrapping_add(k));
    }
    let field = ((p.len() - 7) as u16).to_be_bytes();
    p[4] = field[0];
    p[5] = field[1];
    seal(&mut p);
    p
}

/// A packet with the given data length and pads, otherwise well formed.
fn sized(data_length: usize, pads: u8) -> Vec<u8> {
    let mut p = vec![0u8; 6 + data_length];
    p[0] = 0x18;
    let field = ((data_length - 1) as u16).to_be_bytes();
    p[4] = field[0];
    p[5] = field[1];
    p[6] = pads;
    seal(&mut p);
    p
}

fn good(image: &[u8]) -> (Config, Run) {
    let loaded = load(image);
    assert_eq!((loaded.answer, loaded.offset), (0, 0));
    assert!(keeps_rules(&loaded.config, &loaded.run));
    (loaded.config, loaded.run)
}

fn four(a: Answer) -> (u8, u16, u8, u16) {
    (a.answer, a.id, a.dest, a.written)
}

fn send(config: &Config, run: &mut Run, p: &[u8]) -> (u8, u16, u8, u16) {
    let mut out = [MARK; 260];
    let answer = step_packet(config, run, p, &mut out);
    if answer.answer != 10 {
        // "A step writes output only for answer 10"
        assert!(out.iter().all(|b| *b == MARK));
    }
    four(answer)
}

fn fault(config: &Config, run: &mut Run, f: u16) -> (u8, u16, u8, u16) {
    let mut out = [MARK; 260];
    let answer = step_fault(config, run, f, &mut out);
    if answer.answer != 10 {
        assert!(out.iter().all(|b| *b == MARK));
    }
    four(answer)
}

fn tick(config: &Config, run: &mut Run) -> (u8, u16, u8, u16) {
    four(step_tick(config, run))
}

fn counts(pairs: &[(usize, u16)]) -> [u16; 7] {
    let mut c = [0u16; 7];
    for (which, n) in pairs {
        c[*which] = *n;
    }
    c
}

fn refused(image: &[u8], answer: u8, offset: usize) {
    let loaded = load(image);
    assert_eq!((loaded.answer, loaded.offset), (answer, offset));
    assert_eq!(loaded.config, Config::zero());
    assert_eq!(loaded.run, Run::zero());
    // "its two sources are equal, so every step on it gives 20"
    let mut run = loaded.run;
    assert_eq!(send(&loaded.config, &mut run, &G), (20, 0, 0, 0));
    assert_eq!(tick(&loaded.config, &mut run), (20, 0, 0, 0));
    assert_eq!(fault(&loaded.config, &mut run, 7), (20, 0, 0, 0));
    assert_eq!(run, Run::zero());
    // "After a load refusal ... it writes `bad` and ends."
    assert_eq!(
        session(image, &rec(17, &[])),
        format!("{} {}\nbad\n", answer, offset)
    );
}

/// Own commands 1 to 7 protected, rows of every sort, routed ids 10 and 20.
fn rich() -> Vec<u8> {
    join(&[
        basics(0x1234, 0xABCD, 100),
        route(10, 1),
        route(20, 31),
        protect(20),
        protect(101),
        protect(104),
        row(7, 10, 1, 1, &[0xAA]),
        row(8, 20, 1, 0, &[]),
        row(0x0102, 20, 0, 1, &[1, 2, 3]),
        row(0x0201, 10, 0, 0, &[9; 16]),
    ])
}

// ------------------------------------------------- the printed session

const PRINTED: &str = "0 0
30 20 0 0
11 100 0 0
14 0 0 0
10 20 2 5
11 100 0 0
14 0 0 0
15 0 0 0
30 20 0 0
10 10 1 6
10 10 1 6
13 0 0 0
34 0 0 0
";

fn steps_of_the_session() -> Vec<u8> {
    join(&[
        rec(16, &G),
        rec(16, &ARM),
        rec(17, &[]),
        rec(16, &G),
        rec(16, &ARM),
        rec(17, &[]),
        rec(17, &[]),
        rec(16, &G),
        rec(16, &PAD),
        rec(18, &[7, 0]),
        rec(18, &[7, 0]),
        rec(18, &[8, 0]),
    ])
}

#[test]
fn printed_session() {
    assert_eq!(session(&C, &steps_of_the_session()), PRINTED);
}

#[test]
fn configuration_c_from_its_records() {
    let made = join(&[
        basics(1, 2, 100),
        route(10, 1),
        route(20, 2),
        protect(20),
        row(7, 10, 1, 1, &[0xAA]),
    ]);
    assert_eq!(made, C.to_vec());
    assert_eq!(packet(20, &[], 0), G.to_vec());
    assert_eq!(packet(100, &[2], 0), ARM.to_vec());
}

// ------------------------------------------------- the bullets

#[test]
fn star_c_loads_and_empty_gives_5() {
    let loaded = load(&C);
    assert_eq!((loaded.answer, loaded.offset), (0, 0));
    let mut config = Config::zero();
    config.ground = 1;
    config.fault = 2;
    config.base = 100;
    config.nroutes = 2;
    config.routeids[0] = 10;
    config.routeids[1] = 20;
    config.dests[0] = 1;
    config.dests[1] = 2;
    config.nprotected = 1;
    config.protected[0] = 20;
    config.nrows = 1;
    config.faultids[0] = 7;
    config.responses[0] = 10;
    config.latching[0] = 1;
    config.argcounts[0] = 1;
    config.args[0] = 0xAA;
    assert_eq!(loaded.config, config);
    let mut run = Run::zero();
    run.states[0] = 1;
    assert_eq!(loaded.run, run);
    refused(&[], 5, 0);
}

#[test]
fn star_g_arm_pad_accepted_and_g_with_15_gives_27() {
    let judged = |p: &[u8]| {
        let j = judge(p);
        (j.answer, j.id, j.count)
    };
    assert_eq!(judged(&G), (0, 20, 0));
    assert_eq!(judged(&ARM), (0, 100, 1));
    assert_eq!(judged(&PAD), (0, 10, 1));
    assert_eq!(arguments(&G), (10, 0));
    assert_eq!(arguments(&ARM), (10, 1));
    assert_eq!(arguments(&PAD), (10, 1));
    let mut g15 = G;
    g15[9] = 0x15;
    assert_eq!(judged(&g15), (27, 0, 0));
    assert_eq!(arguments(&g15), (0, 0));
}

#[test]
fn star_short_g() {
    assert_eq!(judge(&G[..9]).answer, 23);
    assert_eq!(judge(&G[..5]).answer, 22);
    let (config, mut run) = good(&C);
    assert_eq!(send(&config, &mut run, &G[..9]), (23, 0, 0, 0));
    assert_eq!(send(&config, &mut run, &G[..5]), (22, 0, 0, 0));
    assert_eq!(run.counts, counts(&[(R, 2)]));
}

#[test]
fn star_pad_and_fault_7_dispatch() {
    let (config, mut run) = good(&C);
    let mut out = [MARK; 300];
    let answer = step_packet(&config, &mut run, &PAD, &mut out);
    assert_eq!(four(answer), (10, 10, 1, 6));
    assert_eq!(out[..6], [0x00, 0x01, 0x00, 0x0A, 0x01, 0x05]);
    // "later bytes stay"
    assert!(out[6..].iter().all(|b| *b == MARK));

    let mut out = [MARK; 300];
    let answer = step_fault(&config, &mut run, 7, &mut out);
    assert_eq!(four(answer), (10, 10, 1, 6));
    assert_eq!(out[..6], [0x00, 0x02, 0x00, 0x0A, 0x01, 0xAA]);
    assert!(out[6..].iter().all(|b| *b == MARK));
    assert_eq!(run.counts, counts(&[(A, 1), (D, 2), (F, 1)]));
}

#[test]
fn star_timeouts() {
    let (config, mut run) = good(&C);
    assert_eq!(
        send(&config, &mut run, &packet(100, &[1], 0)),
        (11, 100, 0, 0)
    );
    assert_eq!(tick(&config, &mut run), (15, 0, 0, 0));
    assert!(!run.armed);
    assert_eq!(tick(&config, &mut run), (14, 0, 0, 0));

    assert_eq!(
        send(&config, &mut run, &packet(100, &[0], 0)),
        (11, 100, 0, 0)
    );
    for _ in 0..300 {
        assert_eq!(tick(&config, &mut run), (14, 0, 0, 0));
        assert!(run.armed);
        assert_eq!(run.ticks, 0);
    }
    // "Timeout 0 lasts until an accepted packet."
    assert_eq!(send(&config, &mut run, &G), (10, 20, 2, 5));
    assert!(!run.armed);
}

#[test]
fn star_own_base_65528_and_65529() {
    let mut image = C;
    image[8] = 0xF8;
    image[9] = 0xFF;
    let (config, mut run) = good(&image);
    assert_eq!(config.base, 65_528);
    assert_eq!(
        send(&config, &mut run, &packet(65_535, &[], 0)),
        (12, 65_535, 0, 0)
    );
    assert_eq!(
        send(&config, &mut run, &packet(65_528, &[3], 0)),
        (11, 65_528, 0, 0)
    );
    assert_eq!(send(&config, &mut run, &packet(0, &[], 0)), (33, 0, 0, 0));
    image[8] = 0xF9;
    refused(&image, 7, 0);
}

#[test]
fn arguments_255_and_256_data_less_pads_4_and_3() {
    let many: Vec<u8> = (0..=255u8).collect();
    for pads in [0u8, 1, 127] {
        let p = packet(10, &many[..255], pads);
        let j = judge(&p);
        assert_eq!((j.answer, j.id, j.count), (0, 10, 255));
        assert_eq!(arguments(&p), (10, 255));
        let p = packet(10, &many[..256], pads);
        let j = judge(&p);
        assert_eq!((j.answer, j.id, j.count), (29, 0, 0));
        assert_eq!(arguments(&p), (0, 0));
    }
    // Data length 4 to 131 with the pads that leave 4 and 3.
    for data in 4..=131usize {
        let p = sized(data, (data - 4) as u8);
        let j = judge(&p);
        assert_eq!((j.answer, j.id, j.count), (0, 0, 0));
        assert_eq!(arguments(&p), (10, 0));
    }
    for data in 3..=130usize {
        assert_eq!(judge(&sized(data, (data - 3) as u8)).answer, 28);
    }
    // 255 arguments dispatched fill the room.
    let (config, mut run) = good(&C);
    let mut out = [MARK; 261];
    let answer = step_packet(&config, &mut run, &packet(10, &many[..255], 3), &mut out);
    assert_eq!(four(answer), (10, 10, 1, 260));
    assert_eq!(out[..5], [0, 1, 0, 10, 255]);
    assert_eq!(out[5..260], many[..255]);
    assert_eq!(out[260], MARK);
    assert_eq!(
        send(&config, &mut run, &packet(10, &many[..256], 0)),
        (29, 0, 0, 0)
    );
}

#[test]
fn room_260_serves_259_gives_21() {
    let (config, start) = good(&C);
    for p in [&G[..], &PAD[..], &ARM[..], &G[..5], &[][..]] {
        let mut run = start.clone();
        let mut out = [MARK; 260];
        assert_ne!(step_packet(&config, &mut run, p, &mut out).answer, 21);
        for room in [0usize, 1, 5, 6, 259] {
            let mut run = start.clone();
            let mut out = vec![MARK; room];
            let answer = step_packet(&config, &mut run, p, &mut out);
            assert_eq!(four(answer), (21, 0, 0, 0));
            assert_eq!(run, start);
            assert!(out.iter().all(|b| *b == MARK));
        }
    }
    for f in [7u16, 8] {
        let mut run = start.clone();
        let mut out = [MARK; 260];
        assert_ne!(step_fault(&config, &mut run, f, &mut out).answer, 21);
        let mut run = start.clone();
        let mut out = [MARK; 259];
        assert_eq!(
            four(step_fault(&config, &mut run, f, &mut out)),
            (21, 0, 0, 0)
        );
        assert_eq!(run, start);
        assert!(out.iter().all(|b| *b == MARK));
    }
    // 20 comes before 21.
    let mut broken = config;
    broken.fault = broken.ground;
    let mut run = start;
    let mut out = [MARK; 259];
    assert_eq!(step_packet(&broken, &mut run, &G, &mut out).answer, 20);
    assert_eq!(step_fault(&broken, &mut run, 7, &mut out).answer, 20);
}

// ------------------------------------------------- readings that the rules exclude

#[test]
fn excluded_pads_as_arguments_or_out_of_the_xor() {
    let p = packet(10, &[1, 2, 3], 5);
    assert_eq!(judge(&p).count, 3);
    assert_eq!(arguments(&p), (10, 3));
    let (config, mut run) = good(&C);
    let mut out = [MARK; 260];
    assert_eq!(step_packet(&config, &mut run, &p, &mut out).written, 8);
    assert_eq!(out[..9], [0, 1, 0, 10, 3, 1, 2, 3, MARK]);
    // A changed pad byte changes the XOR.
    for at in 13..18 {
        let mut changed = p.clone();
        changed[at] ^= 0x40;
        assert_eq!(judge(&changed).answer, 27);
    }
    // PAD with its pad counted: an own command with a pad has its right count.
    assert_eq!(
        send(&config, &mut run, &packet(100, &[9], 4)),
        (11, 100, 0, 0)
    );
    assert_eq!(run.ticks, 9);
}

#[test]
fn excluded_rejected_unarms_or_unregistered_stays_armed() {
    let (config, mut run) = good(&C);
    assert_eq!(send(&config, &mut run, &packet(100, &[9], 0)).0, 11);
    let armed = run.clone();
    let many = [0u8; 256];
    let mut rejected: Vec<Vec<u8>> = vec![
        Vec::new(),
        G[..5].to_vec(),
        G[..9].to_vec(),
        packet(20, &many, 0),
        sized(3, 0),
    ];
    for bit in [0x80u8, 0x40, 0x20, 0x10, 0x08] {
        let mut p = G;
        p[0] ^= bit;
        rejected.push(p.to_vec());
    }
    let mut p = G;
    p[9] = 0x15;
    rejected.push(p.to_vec());
    for p in &rejected {
        let answer = send(&config, &mut run, p).0;
        assert!((22..=29).contains(&answer));
        assert!(run.armed);
        assert_eq!(run.ticks, 9);
    }
    assert_eq!(run.counts, counts(&[(A, 1), (R, rejected.len() as u16)]));
    // A fault leaves it too.
    assert_eq!(fault(&config, &mut run, 7).0, 10);
    assert_eq!(fault(&config, &mut run, 7).0, 13);
    assert_eq!(fault(&config, &mut run, 8).0, 34);
    assert_eq!((run.armed, run.ticks), (true, 9));
    assert_eq!(run.states[0], 2);
    assert_ne!(run, armed);

    // An unregistered id unarms.
    assert_eq!(send(&config, &mut run, &packet(11, &[], 0)), (33, 11, 0, 0));
    assert_eq!((run.armed, run.ticks), (false, 0));
    assert_eq!(send(&config, &mut run, &G), (30, 20, 0, 0));
}

#[test]
fn excluded_timeout_one_tick_late() {
    let (config, mut run) = good(&C);
    for timeout in 1..=255u8 {
        assert_eq!(send(&config, &mut run, &packet(100, &[timeout], 0)).0, 11);
        assert_eq!((run.armed, run.ticks), (true, u16::from(timeout)));
        for left in (1..timeout).rev() {
            assert_eq!(tick(&config, &mut run), (14, 0, 0, 0));
            assert_eq!((run.armed, run.ticks), (true, u16::from(left)));
        }
        assert_eq!(tick(&config, &mut run), (15, 0, 0, 0));
        assert_eq!((run.armed, run.ticks), (false, 0));
    }
}

#[test]
fn excluded_length_before_protection() {
    let (config, mut run) = good(&rich());
    // Reset (101) is protected; unarmed and of wrong length it gets 30, not 31.
    assert_eq!(
        send(&config, &mut run, &packet(101, &[1], 0)),
        (30, 101, 0, 0)
    );
    // Enable (104) is protected; unarmed, wrong length or unknown fault: 30.
    assert_eq!(
        send(&config, &mut run, &packet(104, &[1], 0)),
        (30, 104, 0, 0)
    );
    assert_eq!(
        send(&config, &mut run, &packet(104, &[99, 99], 0)),
        (30, 104, 0, 0)
    );
    assert_eq!(run.counts, counts(&[(A, 3), (P, 3)]));
    // Armed they come to their length and their fault id.
    let arm = packet(100, &[0], 0);
    assert_eq!(send(&config, &mut run, &arm).0, 11);
    assert_eq!(
        send(&config, &mut run, &packet(101, &[1], 0)),
        (31, 101, 0, 0)
    );
    assert!(!run.armed);
    assert_eq!(send(&config, &mut run, &arm).0, 11);
    assert_eq!(
        send(&config, &mut run, &packet(104, &[1], 0)),
        (31, 104, 0, 0)
    );
    assert_eq!(send(&config, &mut run, &arm).0, 11);
    assert_eq!(
        send(&config, &mut run, &packet(104, &[99, 99], 0)),
        (32, 104, 0, 0)
    );
    assert_eq!(run.counts, counts(&[(A, 9), (P, 3), (I, 3)]));
    assert_eq!(send(&config, &mut run, &arm).0, 11);
    assert_eq!(
        send(&config, &mut run, &packet(101, &[], 0)),
        (12, 101, 0, 0)
    );
    assert_eq!(run.counts, [0; 7]);
}

#[test]
fn excluded_latching_what_was_not_dispatched() {
    let (config, mut run) = good(&rich());
    // Row 2 latches and is disabled: a fault leaves it disabled.
    assert_eq!(fault(&config, &mut run, 0x0102), (13, 0, 0, 0));
    assert_eq!(run.states[2], 0);
    assert_eq!(run.counts, counts(&[(F, 1)]));
    // With no room nothing is latched.
    let before = run.clone();
    let mut out = [MARK; 259];
    assert_eq!(step_fault(&config, &mut run, 7, &mut out).answer, 21);
    assert_eq!(run, before);
    // With room it is.
    assert_eq!(fault(&config, &mut run, 7), (10, 10, 1, 6));
    assert_eq!(run.states[0], 2);
}

// ------------------------------------------------- the judge

#[test]
fn judge_each_answer_in_order() {
    // Each packet breaks this rule and every later one that it can.
    assert_eq!(judge(&[]).answer, 22);
    assert_eq!(judge(&[0xFF; 5]).answer, 22);
    assert_eq!(judge(&[0xE0, 0, 0, 0, 0, 0]).answer, 23);
    assert_eq!(judge(&[0xFF; 6]).answer, 23);
    assert_eq!(judge(&[0xFF; 7]).answer, 23);
    // Version 1 to 7, type 0, no secondary header, XOR not zero, pads too many.
    for version in 1..=7u8 {
        assert_eq!(judge(&[version << 5, 0, 0, 0, 0, 0, 0x7F]).answer, 24);
    }
    assert_eq!(judge(&[0x00, 0, 0, 0, 0, 0, 0x7F]).answer, 25);
    assert_eq!(judge(&[0x08, 0, 0, 0, 0, 0, 0x7F]).answer, 25);
    assert_eq!(judge(&[0x10, 0, 0, 0, 0, 0, 0x7F]).answer, 26);
    assert_eq!(judge(&[0x18, 0, 0, 0, 0, 0, 0x7F]).answer, 27);
    // Seven bytes, XOR zero: data length 1.
    assert_eq!(judge(&[0x18, 0, 0, 0, 0, 0, 0x18]).answer, 28);
    assert_eq!(judge(&[0x1F, 0x1F, 0, 0, 0, 0, 0]).answer, 28);
    // The low three bits of byte 0, byte 1, 2 and 3 are not read.
    for (b0, b1, b2, b3) in [
        (0x1Fu8, 0xFFu8, 0xFFu8, 0xFFu8),
        (0x18, 0, 0, 0),
        (0x1A, 7, 0x80, 1),
    ] {
        let mut p = G;
        p[0] = b0;
        p[1] = b1;
        p[2] = b2;
        p[3] = b3;
        seal(&mut p);
        assert_eq!((judge(&p).answer, judge(&p).id), (0, 20));
    }
    // The high bit of the function code is ignored.
    let mut p = PAD;
    p[6] |= 0x80;
    seal(&mut p);
    assert_eq!(
        (judge(&p).answer, judge(&p).id, judge(&p).count),
        (0, 10, 1)
    );
    // A byte too many is 23.
    let mut long = G.to_vec();
    long.push(0);
    assert_eq!(judge(&long).answer, 23);
    // The longest packet of all, and one byte more.
    let longest = sized(65_536, 127);
    assert_eq!(longest.len(), 65_542);
    assert_eq!(judge(&longest).answer, 29);
    let mut more = longest;
    more.push(0);
    assert_eq!(judge(&more).answer, 23);
    // Most pads: 127 of data length 386 leave 255 arguments, of 387 leave 256.
    assert_eq!(
        (
            judge(&sized(386, 127)).answer,
            judge(&sized(386, 127)).count
        ),
        (0, 255)
    );
    assert_eq!(judge(&sized(387, 127)).answer, 29);
    // More pads than data.
    for data in 1..=126usize {
        assert_eq!(judge(&sized_any(data, 127)).answer, 28);
    }
}

/// As `sized`, also for packets without a byte 7 (sealed by byte 1).
fn sized_any(data_length: usize, pads: u8) -> Vec<u8> {
    let mut p = vec![0u8; 6 + data_length];
    p[0] = 0x18;
    let field = ((data_length - 1) as u16).to_be_bytes();
    p[4] = field[0];
    p[5] = field[1];
    p[6] = pads;
    p[1] = p.iter().fold(0u8, |x, b| x ^ b);
    p
}

#[test]
fn every_single_changed_byte_of_pad_is_refused() {
    for at in 0..PAD.len() {
        for bit in 0..8 {
            let mut p = PAD;
            p[at] ^= 1 << bit;
            let j = judge(&p);
            let expected = match (at, bit) {
                (0, 7) | (0, 6) | (0, 5) => 24,
                (0, 4) => 25,
                (0, 3) => 26,
                (4, _) | (5, _) => 23,
                _ => 27,
            };
            assert_eq!((j.answer, j.id, j.count), (expected, 0, 0));
        }
    }
}

// ------------------------------------------------- loading

#[test]
fn load_refusal_1_cut() {
    // Every proper prefix that does not end between records.
    for end in 1..C.len() {
        let start_of = [0usize, 10, 17, 24, 30];
        let start = *start_of.iter().filter(|s| **s < end).max().unwrap();
        if start_of.contains(&end) {
            assert_eq!(load(&C[..end]).answer, 0);
        } else {
            refused(&C[..end], 1, start);
        }
    }
    // 1 comes before 2: a body that passes the end in a record of kind 9.
    refused(&[1, 0, 9, 0], 1, 0);
    refused(&[0xFF, 0xFF, 0xFF, 0xFF], 1, 0);
    // A bad earlier record is met first.
    refused(&join(&[basics(1, 1, 0), vec![1]]), 7, 0);
}

#[test]
fn load_refusal_2_kind() {
    for kind in [0u16, 5, 6, 16, 256, 257, 0x0201, 0xFFFF] {
        refused(&rec(kind, &[]), 2, 0);
        refused(&rec(kind, &[0; 6]), 2, 0);
        refused(&join(&[C.to_vec(), rec(kind, &[1])]), 2, 42);
    }
}

#[test]
fn load_refusal_3_length() {
    for length in 0..32usize {
        let body = vec![0u8; length];
        for kind in 1..=4u16 {
            let right = match kind {
                1 => 6,
                2 => 3,
                3 => 2,
                _ => 7,
            };
            if length != right {
                // 3 comes before 4, here "first record not kind 1".
                refused(&rec(kind, &body), 3, 0);
            } else if kind != 1 {
                refused(&rec(kind, &body), 4, 0);
            }
        }
    }
    // n 16 is right, 17 is not, though the length fits n.
    let head = join(&[basics(1, 2, 100), route(10, 1)]);
    assert_eq!(
        load(&join(&[head.clone(), row(7, 10, 0, 0, &[5; 16])])).answer,
        0
    );
    for n in 17..=255usize {
        refused(&join(&[head.clone(), row(7, 10, 0, 0, &vec![5; n])]), 3, 17);
    }
    // n that doesn't fit the length.
    let mut wrong = row(7, 10, 0, 0, &[5; 16]);
    wrong[10] = 15;
    refused(&join(&[head.clone(), wrong]), 3, 17);
    let mut wrong = row(7, 10, 0, 0, &[5; 3]);
    wrong[10] = 4;
    refused(&join(&[head, wrong]), 3, 17);
}

#[test]
fn load_refusal_4_order() {
    // First record not kind 1.
    refused(&route(10, 1), 4, 0);
    refused(&protect(10), 4, 0);
    refused(&row(1, 10, 0, 0, &[]), 4, 0);
    // A second kind 1, at once or later.
    refused(&join(&[basics(1, 2, 100), basics(1, 2, 100)]), 4, 10);
    refused(&join(&[C.to_vec(), basics(1, 2, 100)]), 4, 42);
    // A kind that falls.
    refused(
        &join(&[basics(1, 2, 100), route(10, 1), protect(10), route(20, 1)]),
        4,
        23,
    );
    refused(&join(&[C.to_vec(), route(30, 1)]), 4, 42);
    refused(&join(&[C.to_vec(), protect(103)]), 4, 42);
    // An id not above the one before, equal or less.
    for id in [10u16, 9, 0] {
        refused(
            &join(&[basics(1, 2, 100), route(10, 1), route(id, 1)]),
            4,
            17,
        );
    }
    let routes = join(&[basics(1, 2, 100), route(10, 1), route(11, 1)]);
    for id in [11u16, 10] {
        refused(&join(&[routes.clone(), protect(11), protect(id)]), 4, 30);
    }
    for id in [7u16, 6] {
        refused(
            &join(&[
                routes.clone(),
                row(7, 11, 0, 0, &[]),
                row(id, 10, 0, 0, &[]),
            ]),
            4,
            35,
        );
    }
    // Ids of different kinds are not compared; response ids need not rise.
    assert_eq!(
        load(&join(&[
            basics(1, 2, 100),
            route(300, 1),
            route(301, 1),
            protect(101),
            row(0, 301, 0, 0, &[]),
            row(1, 300, 0, 0, &[]),
            row(2, 300, 0, 0, &[]),
        ]))
        .answer,
        0
    );
    // 4 comes before 7: the falling id has a bad destination too.
    refused(
        &join(&[basics(1, 2, 100), route(10, 1), route(10, 0)]),
        4,
        17,
    );
    refused(&join(&[basics(1, 2, 100), basics(1, 1, 65_535)]), 4, 10);
}

fn many_routes(n: u16) -> Vec<u8> {
    let mut image = basics(1, 2, 1000);
    for k in 0..n {
        image.extend(route(k, 31));
    }
    image
}

#[test]
fn load_refusal_6_limits() {
    let full = many_routes(128);
    let (config, mut run) = good(&full);
    assert_eq!(config.nroutes, 128);
    assert_eq!(send(&config, &mut run, &packet(0, &[], 0)), (10, 0, 31, 5));
    assert_eq!(
        send(&config, &mut run, &packet(127, &[], 0)),
        (10, 127, 31, 5)
    );
    assert_eq!(
        send(&config, &mut run, &packet(128, &[], 0)),
        (33, 128, 0, 0)
    );
    refused(&many_routes(129), 6, 10 + 128 * 7);
    // 4 comes before 6, 6 before 7.
    refused(&join(&[full.clone(), route(127, 1)]), 4, full.len());
    refused(&join(&[full.clone(), route(128, 0)]), 6, full.len());
    refused(&join(&[full.clone(), route(1000, 1)]), 6, full.len());

    let mut guarded = full.clone();
    for id in 0..32u16 {
        guarded.extend(protect(id));
    }
    assert_eq!(good(&guarded).0.nprotected, 32);
    refused(&join(&[guarded.clone(), protect(32)]), 6, guarded.len());
    refused(&join(&[guarded.clone(), protect(31)]), 4, guarded.len());
    refused(&join(&[guarded.clone(), protect(1000)]), 6, guarded.len());

    let mut whole = guarded.clone();
    for k in 0..32u16 {
        whole.extend(row(k, 127 - k, 1, (k % 2) as u8, &[k as u8; 16]));
    }
    let (config, mut run) = good(&whole);
    assert_eq!(config.nrows, 32);
    assert_eq!(&config.args[31 * 16..], &[31u8; 16]);
    for k in 0..32u16 {
        let mut out = [MARK; 260];
        let answer = step_fault(&config, &mut run, k, &mut out);
        assert_eq!(four(answer), (10, 127 - k, 31, 21));
        assert_eq!(out[..5], [0, 2, 0, 127 - k as u8, 16]);
        assert_eq!(out[5..21], [k as u8; 16]);
        assert_eq!(out[21], MARK);
    }
    refused(
        &join(&[whole.clone(), row(32, 0, 0, 0, &[])]),
        6,
        whole.len(),
    );
    refused(
        &join(&[whole.clone(), row(31, 0, 0, 0, &[])]),
        4,
        whole.len(),
    );
    refused(
        &join(&[whole.clone(), row(32, 9999, 2, 2, &[])]),
        6,
        whole.len(),
    );
}

#[test]
fn load_refusal_7_other_rules() {
    // Sources differ.
    refused(&basics(5, 5, 100), 7, 0);
    refused(&basics(0, 0, 0), 7, 0);
    assert_eq!(load(&basics(0, 1, 0)).answer, 0);
    // Own base.
    assert_eq!(load(&basics(1, 2, 65_528)).answer, 0);
    for base in 65_529..=65_535u16 {
        refused(&basics(1, 2, base), 7, 0);
    }
    // Destination.
    let b = basics(1, 2, 100);
    for dest in 0..=255u8 {
        let image = join(&[b.clone(), route(10, dest)]);
        if (1..=31).contains(&dest) {
            good(&image);
        } else {
            refused(&image, 7, 10);
        }
    }
    // No routed id is an own id.
    for id in 95..=115u16 {
        let image = join(&[b.clone(), route(id, 1)]);
        if (100..=107).contains(&id) {
            refused(&image, 7, 10);
        } else {
            good(&image);
        }
    }
    // A protected id is routed or own but never the arm id.
    for id in 0..=300u16 {
        let image = join(&[b.clone(), route(20, 1), route(200, 1), protect(id)]);
        if id == 20 || id == 200 || (101..=107).contains(&id) {
            good(&image);
        } else {
            refused(&image, 7, 24);
        }
    }
    // A response id is routed; an own id isn't.
    for id in 0..=300u16 {
        let image = join(&[
            b.clone(),
            route(20, 1),
            route(200, 1),
            row(1, id, 1, 1, &[]),
        ]);
        if id == 20 || id == 200 {
            good(&image);
        } else {
            refused(&image, 7, 24);
        }
    }
    // Start state and latching.
    for start in [0u8, 1, 2, 3, 255] {
        for latching in [0u8, 1, 2, 255] {
            let image = join(&[b.clone(), route(20, 1), row(1, 20, start, latching, &[1])]);
            if start <= 1 && latching <= 1 {
                let (config, run) = good(&image);
                assert_eq!((run.states[0], config.latching[0]), (start, latching));
            } else {
                refused(&image, 7, 17);
            }
        }
    }
}

// ------------------------------------------------- answer 20

#[test]
fn state_breaks_its_rules() {
    let (config, mut run) = good(&rich());
    run.armed = true;
    run.ticks = 255;
    run.counts = [65_535; 7];
    run.states[0] = 2;
    assert!(keeps_rules(&config, &run));

    let config_case = |what: &str, change: &dyn Fn(&mut Config)| {
        let mut broken = config.clone();
        change(&mut broken);
        assert!(!keeps_rules(&broken, &run), "{}", what);
        let mut r = run.clone();
        assert_eq!(send(&broken, &mut r, &G), (20, 0, 0, 0));
        assert_eq!(send(&broken, &mut r, &[]), (20, 0, 0, 0));
        assert_eq!(tick(&broken, &mut r), (20, 0, 0, 0));
        assert_eq!(fault(&broken, &mut r, 7), (20, 0, 0, 0));
        assert_eq!(r, run);
    };
    config_case("sources", &|c| c.fault = c.ground);
    config_case("base", &|c| c.base = 65_529);
    config_case("base above routes", &|c| c.base = 20);
    config_case("129 routes", &|c| c.nroutes = 129);
    config_case("routes", &|c| c.nroutes = usize::MAX);
    config_case("33 protected", &|c| c.nprotected = 33);
    config_case("protected", &|c| c.nprotected = usize::MAX);
    config_case("33 rows", &|c| c.nrows = 33);
    config_case("rows", &|c| c.nrows = usize::MAX);
    config_case("a route left", &|c| c.nroutes = 1);
    config_case("a zero route", &|c| c.nroutes = 3);
    config_case("a protected left", &|c| c.nprotected = 2);
    config_case("a zero protected", &|c| c.nprotected = 4);
    config_case("a row left", &|c| c.nrows = 3);
    config_case("a zero row", &|c| c.nrows = 5);
    config_case("falling routes", &|c| c.routeids[0] = 21);
    config_case("equal routes", &|c| c.routeids[0] = 20);
    config_case("own route", &|c| c.routeids[1] = 107);
    config_case("destination 0", &|c| c.dests[0] = 0);
    config_case("destination 32", &|c| c.dests[0] = 32);
    config_case("falling protected", &|c| c.protected[0] = 102);
    config_case("unknown protected", &|c| c.protected[0] = 19);
    config_case("arm protected", &|c| c.protected[0] = 100);
    config_case("equal faults", &|c| c.faultids[1] = 7);
    config_case("falling faults", &|c| c.faultids[0] = 9);
    config_case("response", &|c| c.responses[0] = 11);
    config_case("own response", &|c| c.responses[0] = 101);
    config_case("latching", &|c| c.latching[0] = 2);
    config_case("count 17", &|c| c.argcounts[3] = 17);
    config_case("count 255", &|c| c.argcounts[3] = 255);
    config_case("argument past n", &|c| c.args[1] = 1);
    config_case("argument past n, row 2", &|c| c.args[2 * 16 + 15] = 1);
    config_case("argument left", &|c| c.argcounts[0] = 0);
    config_case("row doesn't latch, latched", &|c| c.latching[0] = 0);
    for k in 2..128usize {
        config_case("unused route id", &|c| c.routeids[k] = 500 + k as u16);
        config_case("unused destination", &|c| c.dests[k] = 1);
    }
    for k in 3..32usize {
        config_case("unused protected", &|c| c.protected[k] = 107);
    }
    for k in 4..32usize {
        config_case("unused fault id", &|c| c.faultids[k] = 1);
        config_case("unused response", &|c| c.responses[k] = 10);
        config_case("unused latching", &|c| c.latching[k] = 1);
        config_case("unused count", &|c| c.argcounts[k] = 1);
        for j in 0..16usize {
            config_case("unused argument", &|c| c.args[k * 16 + j] = 1);
        }
    }

    let run_case = |what: &str, change: &dyn Fn(&mut Run)| {
        let mut broken = run.clone();
        change(&mut broken);
        assert!(!keeps_rules(&config, &broken), "{}", what);
        let mut r = broken.clone();
        assert_eq!(send(&config, &mut r, &G), (20, 0, 0, 0));
        assert_eq!(tick(&config, &mut r), (20, 0, 0, 0));
        assert_eq!(fault(&config, &mut r, 7), (20, 0, 0, 0));
        assert_eq!(r, broken);
    };
    run_case("unarmed with ticks", &|r| r.armed = false);
    run_case("unarmed with one", &|r| {
        r.armed = false;
        r.ticks = 1
    });
    run_case("256 ticks", &|r| r.ticks = 256);
    run_case("65,535 ticks", &|r| r.ticks = 65_535);
    run_case("state 3", &|r| r.states[0] = 3);
    run_case("state 255", &|r| r.states[2] = 255);
    run_case("latched, row 1", &|r| r.states[1] = 2);
    run_case("latched, row 3", &|r| r.states[3] = 2);
    for k in 4..32usize {
        run_case("unused state", &|r| r.states[k] = 1);
    }

    // What keeps the rules: an unarmed state without ticks, an armed one without.
    let mut r = run.clone();
    r.ticks = 0;
    assert!(keeps_rules(&config, &r));
    r.armed = false;
    assert!(keeps_rules(&config, &r));
    // "start states aside": any of the three states stands in a latching row.
    for state in 0..=2u8 {
        let mut r = run.clone();
        r.states[2] = state;
        assert!(keeps_rules(&config, &r));
    }
    // An argument byte used may be anything, zero too.
    let mut c = config.clone();
    c.args[0] = 0;
    assert!(keeps_rules(&c, &run));
}

// ------------------------------------------------- own commands, arming, counters

#[test]
fn own_commands_and_their_argument_counts() {
    let (config, start) = good(&C);
    let needed = [1usize, 0, 0, 4, 2, 2, 2, 0];
    for which in 0..8u16 {
        for n in 0..=255usize {
            // Fault id 7 where two bytes are wanted, big-endian.
            let args: Vec<u8> = (0..n).map(|j| if j == 1 { 7 } else { 0 }).collect();
            let id = 100 + which;
            let mut run = start.clone();
            run.armed = true;
            run.ticks = 3;
            let answer = send(&config, &mut run, &packet(id, &args, 0));
            if n != needed[usize::from(which)] {
                assert_eq!(answer, (31, id, 0, 0));
                assert_eq!(run.counts, counts(&[(A, 1), (I, 1)]));
                assert_eq!((run.armed, run.ticks), (false, 0));
            } else if which == 0 {
                assert_eq!(answer, (11, id, 0, 0));
                assert_eq!(run.counts, counts(&[(A, 1)]));
                assert_eq!((run.armed, run.ticks), (true, 0));
            } else {
                assert_eq!(answer, (12, id, 0, 0));
                let a = if which == 1 { 0 } else { 1 };
                assert_eq!(run.counts, counts(&[(A, a)]));
                assert_eq!((run.armed, run.ticks), (false, 0));
            }
        }
    }
    let mut run = start;
    // 108 and 99 are not own.
    assert_eq!(send(&config, &mut run, &packet(99, &[], 0)), (33, 99, 0, 0));
    assert_eq!(
        send(&config, &mut run, &packet(108, &[], 0)),
        (33, 108, 0, 0)
    );
    // Fault id not in the table; the id is big-endian.
    for which in 4..=6u16 {
        for args in [[0u8, 8], [7, 0], [0, 0], [7, 7]] {
            let answer = send(&config, &mut run, &packet(100 + which, &args, 0));
            assert_eq!(answer, (32, 100 + which, 0, 0));
        }
    }
    assert_eq!(run.counts, counts(&[(A, 14), (U, 2), (I, 12)]));
}

#[test]
fn table_of_states_and_events() {
    // (state, event) to (state, answer): enable, disable, clear, clear all, fault.
    let latching: [[(u8, u8); 5]; 3] = [
        [(1, 12), (0, 12), (0, 12), (0, 12), (0, 13)],
        [(1, 12), (0, 12), (1, 12), (1, 12), (2, 10)],
        [(2, 12), (0, 12), (1, 12), (1, 12), (2, 13)],
    ];
    for latch in 0..=1u8 {
        let image = join(&[
            basics(1, 2, 100),
            route(10, 1),
            row(6, 10, 0, 1, &[]),
            row(7, 10, 0, latch, &[4]),
            row(8, 10, 1, 1, &[]),
        ]);
        let (config, start) = good(&image);
        for state in 0..=2u8 {
            if latch == 0 && state == 2 {
                continue;
            }
            for event in 0..5usize {
                let mut run = start.clone();
                run.states[1] = state;
                let answer = match event {
                    0 => send(&config, &mut run, &packet(104, &[0, 7], 0)).0,
                    1 => send(&config, &mut run, &packet(105, &[0, 7], 0)).0,
                    2 => send(&config, &mut run, &packet(106, &[0, 7], 0)).0,
                    3 => send(&config, &mut run, &packet(107, &[], 0)).0,
                    _ => fault(&config, &mut run, 7).0,
                };
                let mut expected = latching[usize::from(state)][event];
                // "A row that doesn't latch stays enabled after a fault"
                if latch == 0 && state == 1 && event == 4 {
                    expected = (1, 10);
                }
                assert_eq!((run.states[1], answer), expected);
                assert_eq!((run.states[0], run.states[2]), (0, 1));
            }
        }
    }
    // "Clear all clears each row."
    let (config, mut run) = good(&rich());
    run.states[0] = 2;
    run.states[2] = 2;
    assert_eq!(send(&config, &mut run, &packet(107, &[], 0)).0, 12);
    assert_eq!(&run.states[..5], &[1, 1, 1, 0, 0]);
}

#[test]
fn fault_responses_pass_the_protection() {
    let (config, mut run) = good(&rich());
    // Row 1 answers with protected id 20, and doesn't latch.
    for _ in 0..3 {
        let mut out = [MARK; 260];
        let answer = step_fault(&config, &mut run, 8, &mut out);
        assert_eq!(four(answer), (10, 20, 31, 5));
        assert_eq!(out[..6], [0xAB, 0xCD, 0, 20, 0, MARK]);
    }
    assert_eq!(run.counts, counts(&[(D, 3), (F, 3)]));
    // The ground's own packet doesn't.
    assert_eq!(send(&config, &mut run, &packet(20, &[], 0)), (30, 20, 0, 0));
    assert_eq!(run.counts, counts(&[(A, 1), (P, 1), (D, 3), (F, 3)]));
}

#[test]
fn every_accepted_packet_but_the_arm_unarms() {
    let (config, start) = good(&rich());
    let arm = packet(100, &[5], 0);
    let others: [(Vec<u8>, u8); 9] = [
        (packet(20, &[], 0), 10),
        (packet(10, &[1], 0), 10),
        (packet(100, &[], 0), 31),
        (packet(100, &[1, 2], 0), 31),
        (packet(101, &[], 0), 12),
        (packet(102, &[], 0), 12),
        (packet(103, &[1], 0), 31),
        (packet(105, &[9, 9], 0), 32),
        (packet(5000, &[], 0), 33),
    ];
    for (p, expected) in &others {
        let mut run = start.clone();
        assert_eq!(send(&config, &mut run, &arm).0, 11);
        assert_eq!((run.armed, run.ticks), (true, 5));
        assert_eq!(send(&config, &mut run, p).0, *expected);
        assert_eq!((run.armed, run.ticks), (false, 0));
        assert_eq!(send(&config, &mut run, &packet(20, &[], 0)).0, 30);
        assert_eq!((run.armed, run.ticks), (false, 0));
    }
    // "also when already armed"
    let mut run = start;
    assert_eq!(send(&config, &mut run, &arm).0, 11);
    assert_eq!(tick(&config, &mut run).0, 14);
    assert_eq!(run.ticks, 4);
    assert_eq!(send(&config, &mut run, &packet(100, &[255], 0)).0, 11);
    assert_eq!((run.armed, run.ticks), (true, 255));
    assert_eq!(send(&config, &mut run, &packet(100, &[0], 0)).0, 11);
    assert_eq!((run.armed, run.ticks), (true, 0));
}

#[test]
fn counters_wrap_at_65536() {
    let (config, start) = good(&rich());
    let mut full = start;
    full.counts = [65_535; 7];
    let wrapped = |which: &[usize]| {
        let mut c = [65_535u16; 7];
        for w in which {
            c[*w] = 0;
        }
        c
    };
    let after = |p: &[u8]| {
        let mut run = full.clone();
        let answer = send(&config, &mut run, p).0;
        (answer, run.counts)
    };
    assert_eq!(after(&[]), (22, wrapped(&[R])));
    assert_eq!(after(&packet(10, &[], 0)), (10, wrapped(&[A, D])));
    assert_eq!(after(&packet(100, &[1], 0)), (11, wrapped(&[A])));
    assert_eq!(after(&packet(102, &[], 0)), (12, wrapped(&[A])));
    assert_eq!(after(&packet(20, &[], 0)), (30, wrapped(&[A, P])));
    assert_eq!(after(&packet(102, &[1], 0)), (31, wrapped(&[A, I])));
    assert_eq!(after(&packet(105, &[9, 9], 0)), (32, wrapped(&[A, I])));
    assert_eq!(after(&packet(1, &[], 0)), (33, wrapped(&[A, U])));
    let after_fault = |f: u16| {
        let mut run = full.clone();
        let answer = fault(&config, &mut run, f).0;
        (answer, run.counts)
    };
    assert_eq!(after_fault(7), (10, wrapped(&[D, F])));
    assert_eq!(after_fault(0x0102), (13, wrapped(&[F])));
    assert_eq!(after_fault(99), (34, wrapped(&[F])));
    let mut run = full.clone();
    assert_eq!(tick(&config, &mut run).0, 14);
    assert_eq!(run.counts, full.counts);

    // All the way round on one counter, from zero.
    let mut run = full.clone();
    run.counts = [0; 7];
    let mut out = [MARK; 260];
    for _ in 0..65_535u32 {
        step_packet(&config, &mut run, &[], &mut out);
    }
    assert_eq!(run.counts, counts(&[(R, 65_535)]));
    step_packet(&config, &mut run, &[], &mut out);
    assert_eq!(run.counts, counts(&[]));
}

#[test]
fn reset_leaves_all_seven_at_zero() {
    let (config, mut run) = good(&C);
    run.counts = [1, 2, 3, 4, 5, 6, 65_535];
    assert_eq!(
        send(&config, &mut run, &packet(101, &[], 0)),
        (12, 101, 0, 0)
    );
    assert_eq!(run.counts, [0; 7]);
    // Fault states stay.
    assert_eq!(run.states[0], 1);
}

#[test]
fn each_answer_number_is_reached() {
    let (config, start) = good(&rich());
    let mut seen: BTreeSet<u8> = BTreeSet::new();
    let mut run = start.clone();
    let many = [0u8; 256];
    let mut wrong_xor = G;
    wrong_xor[9] ^= 1;
    let packets: Vec<Vec<u8>> = vec![
        Vec::new(),
        G[..9].to_vec(),
        [&[0x38u8][..], &G[1..]].concat(),
        [&[0x08u8][..], &G[1..]].concat(),
        [&[0x10u8][..], &G[1..]].concat(),
        wrong_xor.to_vec(),
        sized(3, 0),
        packet(10, &many, 0),
        packet(20, &[], 0),
        packet(100, &[], 0),
        packet(105, &[9, 9], 0),
        packet(1, &[], 0),
        packet(10, &[], 0),
        packet(102, &[], 0),
        packet(100, &[2], 0),
    ];
    for p in &packets {
        seen.insert(send(&config, &mut run, p).0);
    }
    for _ in 0..2 {
        seen.insert(tick(&config, &mut run).0);
    }
    for f in [7u16, 7, 99] {
        seen.insert(fault(&config, &mut run, f).0);
    }
    seen.insert(step_packet(&config, &mut run, &G, &mut []).answer);
    run.ticks = 1;
    seen.insert(tick(&config, &mut run).0);
    let expected: BTreeSet<u8> = (10..=15u8).chain(20..=34).collect();
    assert_eq!(seen, expected);

    let images: Vec<Vec<u8>> = vec![
        C.to_vec(),
        vec![0],
        rec(5, &[]),
        rec(1, &[]),
        route(1, 1),
        Vec::new(),
        many_routes(129),
        basics(1, 1, 1),
    ];
    let loads: Vec<u8> = images.iter().map(|i| load(i).answer).collect();
    assert_eq!(loads, [0, 1, 2, 3, 4, 5, 6, 7]);
}

// ------------------------------------------------- the step program

#[test]
fn session_endings() {
    // "Where the input ends between records it just ends."
    assert_eq!(session(&C, &[]), "0 0\n");
    assert_eq!(session(&C, &rec(17, &[])), "0 0\n14 0 0 0\n");
    // Cut header, cut body.
    let whole = steps_of_the_session();
    let mut starts = vec![0usize];
    let mut at = 0;
    while at < whole.len() {
        at += 4 + usize::from(whole[at]);
        starts.push(at);
    }
    for end in 0..=whole.len() {
        let printed = session(&C, &whole[..end]);
        let done = starts.iter().filter(|s| **s <= end).count() - 1;
        let mut expected: String = PRINTED
            .lines()
            .take(1 + done)
            .map(|l| format!("{}\n", l))
            .collect();
        if !starts.contains(&end) {
            expected.push_str("bad\n");
        }
        assert_eq!(printed, expected);
    }
    // Another kind.
    for kind in [0u16, 1, 2, 3, 4, 15, 19, 0x1000, 0x1110, 0xFFFF] {
        let input = join(&[rec(17, &[]), rec(kind, &[]), rec(17, &[])]);
        assert_eq!(session(&C, &input), "0 0\n14 0 0 0\nbad\n");
    }
    // Wrong length of a tick and of a fault.
    assert_eq!(session(&C, &rec(17, &[0])), "0 0\nbad\n");
    for n in [0usize, 1, 3, 4] {
        assert_eq!(session(&C, &rec(18, &vec![7; n])), "0 0\nbad\n");
    }
    // A packet of no bytes is a packet; the fault id is little-endian.
    let input = join(&[rec(16, &[]), rec(18, &[0, 7]), rec(18, &[7, 0])]);
    assert_eq!(session(&C, &input), "0 0\n22 0 0 0\n34 0 0 0\n10 10 1 6\n");
    // The longest record: the length field is 65,535.
    let input = rec(16, &sized(65_529, 0));
    assert_eq!(input.len(), 65_539);
    assert_eq!(session(&C, &input), "0 0\n29 0 0 0\n");
    // Room of 260: 255 arguments pass.
    let input = rec(16, &packet(10, &[1; 255], 9));
    assert_eq!(session(&C, &input), "0 0\n10 10 1 260\n");
}

#[test]
fn session_takes_the_first_65536_bytes_of_the_file() {
    // A last record whose body ends at byte 65,536, and one that ends a byte later.
    let fill = |size: usize| {
        let mut image = C.to_vec();
        image.extend(rec(2, &vec![0u8; size - 42 - 4]));
        assert_eq!(image.len(), size);
        image
    };
    assert_eq!(session(&fill(65_536), &[]), "3 42\nbad\n");
    let longer = fill(65_537);
    assert_eq!(session(&longer, &[]), "1 42\nbad\n");
    // The loading by itself has no such end.
    assert_eq!((load(&longer).answer, load(&longer).offset), (3, 42));
}

#[test]
fn session_of_a_refused_image() {
    assert_eq!(session(&[], &steps_of_the_session()), "5 0\nbad\n");
    assert_eq!(session(&[], &[]), "5 0\nbad\n");
    assert_eq!(session(&C[..41], &steps_of_the_session()), "1 30\nbad\n");
}

// ------------------------------------------------- total on anything

struct Dice(u64);

impl Dice {
    fn next(&mut self) -> u64 {
        self.0 ^= self.0 << 13;
        self.0 ^= self.0 >> 7;
        self.0 ^= self.0 << 17;
        self.0.wrapping_mul(0x2545_F491_4F6C_DD1D)
    }
    fn below(&mut self, n: u64) -> u64 {
        (self.next() >> 16) % n
    }
    fn bytes(&mut self, most: u64) -> Vec<u8> {
        let n = self.below(most + 1);
        (0..n).map(|_| (self.next() >> 32) as u8).collect()
    }
}

#[test]
fn any_input_has_an_answer() {
    let mut dice = Dice(0x9E37_79B9_7F4A_7C15);
    let whole = join(&[C.to_vec(), row(300, 20, 0, 0, &[1, 2])]);
    for _ in 0..3000 {
        // Noise.
        let noise = dice.bytes(40);
        judge(&noise);
        arguments(&noise);
        let loaded = load(&noise);
        assert!(loaded.answer <= 7);
        session(&noise, &noise);
        session(&C, &noise);
        // A good image with some bytes changed loads to a state that keeps the rules,
        // or is refused with zeros.
        let mut image = whole.clone();
        for _ in 0..=dice.below(2) {
            let at = dice.below(image.len() as u64) as usize;
            image[at] = dice.below(256) as u8;
        }
        let loaded = load(&image);
        assert_eq!(loaded.answer == 0, keeps_rules(&loaded.config, &loaded.run));
        if loaded.answer != 0 {
            assert_eq!(loaded.config, Config::zero());
        }
        // Any state, any packet, any room.
        let mut config = loaded.config;
        let mut run = loaded.run;
        match dice.below(6) {
            0 => config.nroutes = dice.next() as usize,
            1 => config.nrows = dice.below(40) as usize,
            2 => config.argcounts[0] = dice.next() as u8,
            3 => run.states[dice.below(32) as usize] = dice.next() as u8,
            4 => run.ticks = dice.next() as u16,
            _ => {}
        }
        run.armed = dice.below(2) == 0;
        let args = dice.bytes(5);
        let id = 90 + dice.below(20) as u16;
        for p in [packet(id, &args, dice.below(4) as u8), noise] {
            let mut out = vec![MARK; 258 + dice.below(4) as usize];
            let before = run.clone();
            let answer = step_packet(&config, &mut run, &p, &mut out);
            if answer.answer == 20 || answer.answer == 21 {
                assert_eq!(run, before);
            } else {
                assert!(keeps_rules(&config, &run));
            }
            step_tick(&config, &mut run);
            step_fault(&config, &mut run, dice.below(10) as u16, &mut out);
        }
    }
}
