//! The ordinary version does what the independent reading does: what is measured side by side is the same work.

use differential::dice::Dice;
use differential::make::event::{self, Event};
use differential::make::image::{self, Plan};
use differential::make::state::{damage, good_run};
use differential::make::{fields, packet};
use differential::oracle;
use ordinary::{Config, Run, REPLY_ROOM, ROOM};

fn config(c: &reading::Config) -> Config {
    let mut args = [[0; 16]; 32];
    args.as_flattened_mut().copy_from_slice(&c.args);
    Config {
        ground: c.ground,
        fault: c.fault,
        base: c.base,
        nroutes: c.nroutes,
        route_ids: c.routeids,
        dests: c.dests,
        nprotected: c.nprotected,
        protected: c.protected,
        nrows: c.nrows,
        fault_ids: c.faultids,
        responses: c.responses,
        latching: c.latching,
        arg_counts: c.argcounts,
        args,
    }
}

fn run(r: &reading::Run) -> Run {
    let [accepted, rejected, dispatched, protected, unknown, invalid, faults] = r.counts;
    Run {
        armed: r.armed,
        ticks: r.ticks,
        accepted,
        rejected,
        dispatched,
        protected,
        unknown,
        invalid,
        faults,
        states: r.states,
    }
}

/// One step on both, with the same output.
fn step(
    dice: &mut Dice,
    config: &Config,
    ours: &mut Run,
    c: &reading::Config,
    theirs: &mut reading::Run,
    event: &Event,
) {
    let room = dice.one(&[ROOM, ROOM, ROOM, ROOM, 300, ROOM - 1, 0]);
    let mut out = dice.bytes(room);
    let mut expected = out.clone();
    let a = match event {
        Event::Packet(p) => ordinary::step_packet(config, ours, p, &mut out),
        Event::Tick => ordinary::step_tick(config, ours),
        Event::Fault(f) => ordinary::step_fault(config, ours, *f, &mut out),
    };
    let b = match event {
        Event::Packet(p) => reading::step_packet(c, theirs, p, &mut expected),
        Event::Tick => reading::step_tick(c, theirs),
        Event::Fault(f) => reading::step_fault(c, theirs, *f, &mut expected),
    };
    assert_eq!(
        (a.outcome as u8, a.id, a.dest, a.written),
        (b.answer, b.id, b.dest, b.written)
    );
    assert_eq!(out, expected);
    assert_eq!(*ours, run(theirs));
}

#[test]
fn packets() {
    let mut bytes = Vec::new();
    for case in 0..100_000 {
        packet::any(&mut Dice::new(2, 0, case), &mut bytes);
        let expected = reading::judge(&bytes);
        let (offset, length) = reading::arguments(&bytes);
        let part = &bytes[offset..offset + length];
        match ordinary::judge(&bytes) {
            Ok(command) => {
                assert_eq!((0, command.id), (expected.answer, expected.id));
                assert_eq!(command.arguments, part);
            }
            Err(refusal) => assert_eq!(refusal as u8, expected.answer),
        }
        assert!(std::ptr::eq(ordinary::arguments(&bytes), part));
    }
}

/// The same answer, and the same bytes in the output, those that were to stay too.
#[test]
fn builds() {
    for case in 0..100_000 {
        let dice = &mut Dice::new(2, 4, case);
        let fields = fields::any(dice);
        let room = fields::room(dice, &fields);
        let mut out = dice.bytes(room);
        let mut expected = out.clone();
        let (apid, count, id, pads) = (fields.apid, fields.count, fields.id, fields.pads);
        let arguments = &fields.arguments;
        let theirs = reading::build(apid, count, id, arguments, pads, room);
        if let Ok(packet) = &theirs {
            expected[..packet.len()].copy_from_slice(packet);
        }
        let ours = ordinary::Fields {
            apid,
            count,
            id,
            arguments,
            pads,
        };
        let ours = ordinary::build(&ours, &mut out);
        assert_eq!(
            ours.map_err(|refusal| refusal as u8),
            theirs.map(|packet| packet.len())
        );
        assert!(out == expected);
    }
}

#[test]
fn images() {
    for case in 0..5_000 {
        let image = image::any(&mut Dice::new(2, 1, case));
        let expected = reading::load(&image);
        match ordinary::load(&image) {
            Ok(loaded) => {
                assert_eq!(expected.answer, 0);
                assert_eq!(loaded, (config(&expected.config), run(&expected.run)));
            }
            Err(e) => assert_eq!((e.refusal, e.offset), (expected.answer, expected.offset)),
        }
    }
}

#[test]
fn sessions() {
    for case in 0..10 {
        let dice = &mut Dice::new(2, 2, case);
        let image = Plan::good(dice).image();
        let loaded = reading::load(&image);
        let (c, mut theirs) = (loaded.config, good_run(dice, &reading::load(&image).config));
        let config = config(&c);
        let mut ours = run(&theirs);
        let mut recording = Vec::new();
        for _ in 0..3000 {
            let event = event::any(dice, &c);
            event.record(&mut recording);
            step(dice, &config, &mut ours, &c, &mut theirs, &event);
        }
        // The same events as a recording, perhaps with a bad end, and with room or without.
        let n = dice.below(12);
        recording.extend(dice.bytes(n));
        let most = 3010 * REPLY_ROOM;
        let room = dice.one(&[most, most, 100_000, 5]);
        let mut start = loaded.run;
        let expected = oracle::resume(&c, &mut start, &recording, room);
        let mut out = dice.bytes(room);
        let mut bytes = out.clone();
        bytes[..expected.written.len()].copy_from_slice(&expected.written);
        let replayed = ordinary::replay(&image, &recording, &mut out).expect("a good image");
        let piece = replayed.piece;
        assert_eq!(
            (piece.stop as u8, piece.read),
            (expected.stop, expected.read)
        );
        assert_eq!(
            (piece.count, piece.wrote),
            (expected.count, expected.written.len())
        );
        assert_eq!(replayed.counters, start.counts);
        assert!(out == bytes);
    }
}

#[test]
fn states() {
    for case in 0..8_000 {
        let dice = &mut Dice::new(2, 3, case);
        let mut c = reading::load(&Plan::good(dice).image()).config;
        let mut theirs = good_run(dice, &c);
        let mut armed = 0;
        let event = event::any(dice, &c);
        damage(dice, &mut c, &mut theirs, &mut armed);
        let config = config(&c);
        let mut ours = run(&theirs);
        assert_eq!(
            ordinary::keeps_rules(&config, &ours),
            reading::keeps_rules(&c, &theirs)
        );
        step(dice, &config, &mut ours, &c, &mut theirs, &event);
        let mut recording = Vec::new();
        event.record(&mut recording);
        let expected = oracle::resume(&c, &mut theirs, &recording, 300);
        let piece = ordinary::resume(&config, &mut ours, &recording, &mut [0; 300]);
        assert_eq!(
            (piece.stop as u8, piece.read),
            (expected.stop, expected.read)
        );
        assert_eq!(ours, run(&theirs));
    }
}
