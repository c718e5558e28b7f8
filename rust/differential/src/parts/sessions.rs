//! A session of thousands of steps under a made-up configuration; then the same events as one recording, whole and in pieces,
//! with bad records at its end, and under images that are refused.

use super::both::Both;
use super::same;
use crate::dice::Dice;
use crate::make::event::{self, Event};
use crate::make::image::{self, Plan};
use crate::make::state::good_run;
use crate::mirror::hex;
use crate::tally::Tally;
use crate::{oracle, raw};
use reading::{Config, Run};
use tamezohishu::{REPLY_HEAD, REPLY_ROOM, ROOM};

pub fn case(dice: &mut Dice, tally: &mut Tally) -> Result<(), String> {
    let mut plan = Plan::good(dice);
    // A session with no route or no fault row has little to it, so there are fewer of them.
    if plan.routes.is_empty() || plan.rows.is_empty() {
        plan = Plan::good(dice);
    }
    let image = plan.image();
    let loaded = reading::load(&image);
    same("load of a good image", loaded.answer, 0, || hex(&image))?;
    let (config, start) = (loaded.config, loaded.run);
    let events = events(dice, &config);
    let tell = |e: String| format!("{e}\nimage: {}", hex(&image));

    // From the start that the image gives, or from any other that keeps the rules, with counters about to wrap.
    let first = if dice.percent(50) {
        start.clone()
    } else {
        good_run(dice, &config)
    };
    let armed = u8::from(first.armed);
    let mut both = Both::new(config.clone(), first.clone(), armed)?;
    for (k, event) in events.iter().enumerate() {
        let any = dice.below(617);
        let room = dice.one(&[ROOM, ROOM, ROOM, ROOM, ROOM, ROOM, 300, any, ROOM - 1, 0]);
        let step = both.step(dice, tally, event, room);
        step.map_err(|e| tell(format!("step {k}: {e}")))?;
    }

    let mut recording = Vec::new();
    events.iter().for_each(|e| e.record(&mut recording));
    whole(dice, tally, &image, &config, &start, &recording).map_err(tell)?;
    pieces(dice, tally, &config, &first, &recording).map_err(tell)?;
    for _ in 0..20 {
        bad_end(dice, tally, &config, &first, &events).map_err(tell)?;
        let any = image::any(dice);
        let loaded = reading::load(&any);
        whole(
            dice,
            tally,
            &any,
            &loaded.config,
            &loaded.run,
            &recording[..recording.len().min(500)],
        )
        .map_err(|e| format!("{e}\nimage: {}", hex(&any)))?;
    }
    Ok(())
}

/// The events of a session. Now and then a long run of ticks: a timeout of 255 ends, and one of 0 does not.
fn events(dice: &mut Dice, config: &Config) -> Vec<Event> {
    let n = dice.from(2000, 4000);
    let mut events = Vec::with_capacity(n);
    while events.len() < n {
        events.push(event::any(dice, config));
        if dice.below(1000) == 0 {
            events.extend((0..dice.from(250, 310)).map(|_| Event::Tick));
        }
    }
    events
}

/// A recording under an image, good or not, by `tz_replay`: every number, the replies, the bytes behind them.
fn whole(
    dice: &mut Dice,
    tally: &mut Tally,
    image: &[u8],
    config: &Config,
    start: &Run,
    recording: &[u8],
) -> Result<(), String> {
    let loaded = reading::load(image);
    let mut run = start.clone();
    let most = recording.len() / 4 * REPLY_ROOM;
    let half = most / 2;
    let room = dice.one(&[most, most, most, half, 0]);
    // "A refused reader gives its refusal and zeros for all else."
    let (stop, read, count, written) = if loaded.answer == 0 {
        let e = oracle::resume(config, &mut run, recording, room);
        (e.stop, e.read, e.count, e.written)
    } else {
        (0, 0, 0, Vec::new())
    };

    let mut out = dice.bytes(room);
    let mut expected = out.clone();
    expected[..written.len()].copy_from_slice(&written);
    let r = raw::replay(image, recording, &mut out);
    let told = || format!("recording: {}\nroom {room}", hex(recording));
    if r.load == 0 {
        tally.stop.met(r.stop);
    }
    same(
        "replay: load, offset",
        (r.load, r.offset),
        (loaded.answer, loaded.offset),
        told,
    )?;
    same(
        "replay: stop, read, count, wrote",
        (r.stop, r.read, r.count, r.wrote),
        (stop, read, count, written.len()),
        told,
    )?;
    same("replay: counters", r.counts, run.counts, told)?;
    same("replay: output alike", out == expected, true, told)?;

    // The safe crate's iterator cuts the replies where they were put together.
    if let Ok(replay) = tamezohishu::replay(image, recording, &mut out) {
        let replies: Vec<_> = replay.replies().collect();
        let bytes: usize = replies.iter().map(|r| REPLY_HEAD + r.command.len()).sum();
        same(
            "replies",
            (replies.len(), bytes),
            (count, written.len()),
            told,
        )?;
    }
    Ok(())
}

/// A recording in pieces that are cut anywhere, with any room: what they come to is what the whole comes to.
fn pieces(
    dice: &mut Dice,
    tally: &mut Tally,
    config: &Config,
    first: &Run,
    recording: &[u8],
) -> Result<(), String> {
    let most = recording.len() / 4 * REPLY_ROOM;
    let mut run = first.clone();
    let whole = oracle::resume(config, &mut run, recording, most);

    let mut both = Both::new(config.clone(), first.clone(), u8::from(first.armed))?;
    let (mut at, mut count) = (0, 0);
    let mut written = Vec::new();
    while at < recording.len() {
        let left = recording.len() - at;
        let any = dice.from(1, left);
        let few = dice.from(1, left.min(3000));
        let length = dice.one(&[few, few, few, any, left]);
        let any = dice.below(3000);
        let room = dice.one(&[any, any, 20_000, 20_000, REPLY_ROOM, REPLY_ROOM - 1, 0]);
        let piece = both.resume(dice, tally, &recording[at..at + length], room)?;
        at += piece.read;
        count += piece.count;
        written.extend(piece.written);
    }
    let told = || hex(recording);
    same("pieces: count", count, whole.count, told)?;
    same(
        "pieces: replies alike",
        written == whole.written,
        true,
        told,
    )?;
    same("pieces: run", &both.run, &run, told)
}

/// A few events with a bad record behind them, and perhaps more events behind that; room for it, or not.
fn bad_end(
    dice: &mut Dice,
    tally: &mut Tally,
    config: &Config,
    first: &Run,
    events: &[Event],
) -> Result<(), String> {
    let mut recording = Vec::new();
    let from = dice.below(events.len() - 4);
    let n = dice.below(5);
    let some = &events[from..from + n];
    some.iter().for_each(|e| e.record(&mut recording));
    match dice.below(7) {
        0 => {
            let n = dice.from(1, 3);
            recording.extend(dice.bytes(n));
        }
        1 => recording.extend([3, 0, 16, 0, 0x18, 0]),
        2 => recording.extend([1, 0, dice.one(&[17, 19]), 0]),
        3 => {
            let kind: u16 = dice.one(&[0, 1, 4, 15, 19, 0x1000, 0x1110, 0x0110, 0xFFFF]);
            let n = dice.below(4);
            recording.extend(image::record(kind, &dice.bytes(n)));
        }
        4 => {
            let n = dice.from(1, 4);
            recording.extend(image::record(17, &dice.bytes(n)));
        }
        5 => {
            let n = dice.one(&[0, 1, 3, 4]);
            recording.extend(image::record(18, &dice.bytes(n)));
        }
        _ => {}
    }
    if dice.percent(50) {
        Event::Tick.record(&mut recording);
    }
    let mut both = Both::new(config.clone(), first.clone(), u8::from(first.armed))?;
    let room = dice.one(&[2000, 2000, 300, 600, REPLY_ROOM - 1]);
    both.resume(dice, tally, &recording, room).map(|_| ())
}
