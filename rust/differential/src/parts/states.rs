//! A state from elsewhere: good, or damaged in one place. One that breaks a rule, as the reading says, is answered 20 by every
//! step and piece, and nothing changes; one that keeps them is answered as by the reading.

use super::both::Both;
use super::same;
use crate::dice::Dice;
use crate::make::event::{self, Event};
use crate::make::image::Plan;
use crate::make::state::{damage, good_run};
use crate::mirror::hex;
use crate::tally::Tally;
use tamezohishu::{REPLY_ROOM, ROOM};

pub fn case(dice: &mut Dice, tally: &mut Tally) -> Result<(), String> {
    let image = Plan::good(dice).image();
    let loaded = reading::load(&image);
    same("load of a good image", loaded.answer, 0, || hex(&image))?;
    let good = loaded.config;

    let mut config = good.clone();
    let mut run = good_run(dice, &config);
    let mut armed = u8::from(run.armed);
    damage(dice, &mut config, &mut run, &mut armed);

    let any = event::any(dice, &good);
    let events = [
        Event::Packet(event::accepted(dice, &good)),
        Event::Tick,
        Event::Fault(good.faultids[0]),
        any,
    ];
    let start = Both::new(config, run, armed)?;
    let mut recording = Vec::new();
    for event in &events {
        let room = dice.one(&[ROOM, ROOM, 300, 0]);
        start.clone().step(dice, tally, event, room)?;
        event.record(&mut recording);
    }
    let room = dice.one(&[0, REPLY_ROOM - 1, REPLY_ROOM, 2000]);
    let length = dice.one(&[0, recording.len(), recording.len()]);
    let mut both = start;
    both.resume(dice, tally, &recording[..length], room)?;
    Ok(())
}
