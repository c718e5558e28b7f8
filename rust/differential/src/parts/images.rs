//! An image: answer, offset, every place of the configuration and of the run, on refusal too.

use super::same;
use crate::dice::Dice;
use crate::make::image;
use crate::mirror::{check_of, configuration_bytes, hex, same_config, same_run, state_bytes};
use crate::raw;
use crate::tally::Tally;
use tamezohishu::Configuration;

pub fn case(dice: &mut Dice, tally: &mut Tally) -> Result<(), String> {
    let bytes = image::any(dice);
    let told = || format!("image: {}", hex(&bytes));

    let library = raw::load(&bytes);
    let reading = reading::load(&bytes);
    tally.load.met(library.answer);
    same(
        "load",
        (library.answer, library.offset),
        (reading.answer, reading.offset),
        told,
    )?;
    let config = same_config(&library.config, &reading.config);
    same("configuration alike", config, true, told)?;
    same(
        "run alike",
        same_run(&library.run, &reading.run),
        true,
        told,
    )?;

    // The safe crate hands out the same.
    match Configuration::load(&bytes) {
        Ok((configuration, state)) => {
            same("load, by the safe crate", 0, reading.answer, told)?;
            let bytes = configuration_bytes(&reading.config);
            let alike = configuration.to_bytes() == bytes;
            same("configuration, by the safe crate, alike", alike, true, told)?;
            let run = &reading.run;
            let bytes = state_bytes(run, u8::from(run.armed), check_of(&bytes));
            let alike = state.to_bytes(&configuration) == bytes;
            same("state, by the safe crate, alike", alike, true, told)
        }
        Err(error) => same(
            "load, by the safe crate",
            (error.refusal.number(), error.offset),
            (reading.answer, reading.offset),
            told,
        ),
    }
}
