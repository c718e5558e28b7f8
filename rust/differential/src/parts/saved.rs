//! The saved forms of a state that a session reached, and of its configuration: their bytes, by both sides; what comes back;
//! and what is said of them after harm, or under another configuration.

use super::both::Both;
use super::same;
use crate::dice::Dice;
use crate::make::image::Plan;
use crate::make::{event, harm};
use crate::mirror::{self, hex};
use crate::saved::{self, CONFIGURATION};
use crate::tally::Tally;
use tamezohishu::{Configuration, SavedError, State, CONFIGURATION_BYTES, ROOM, STATE_BYTES};

pub fn case(dice: &mut Dice, tally: &mut Tally) -> Result<(), String> {
    let image = Plan::good(dice).image();
    let loaded = reading::load(&image);
    same("load of a good image", loaded.answer, 0, || hex(&image))?;
    let mut both = Both::new(loaded.config, loaded.run, 0)?;
    for _ in 0..dice.below(60) {
        let event = event::any(dice, &both.config);
        both.step(dice, tally, &event, ROOM)?;
    }

    // The step above has compared the bytes of the state.
    let (configuration, state) = (both.configuration(), both.state());
    let own = mirror::configuration_bytes(&both.config);
    let form = state.to_bytes(configuration);
    let told = || hex(&form);
    let alike = configuration.to_bytes() == own;
    same("saved configuration alike", alike, true, told)?;
    let back = State::from_bytes(configuration, &form).as_ref() == Ok(state);
    same("saved state comes back", back, true, told)?;
    let back = Configuration::from_bytes(&own).as_ref() == Ok(configuration);
    same("saved configuration comes back", back, true, told)?;

    // A configuration that is another in one byte, whether the state fits it or not.
    let mut other = own;
    let at = dice.from(4, CONFIGURATION_BYTES - 5);
    other[at] ^= dice.from(1, 255) as u8;
    saved::seal(&mut other);
    let other = Configuration::from_bytes(&other).map_err(|e| format!("{e}: {}", hex(&other)))?;

    for _ in 0..8 {
        let bytes = harm::any(dice, &form, &own);
        let said = State::from_bytes(configuration, &bytes);
        let again = said.map(|state| state.to_bytes(configuration).to_vec());
        let expected = saved::state(&bytes, STATE_BYTES, &own);
        taken(tally, "state", &bytes, again, expected)?;

        let said = State::from_bytes(&other, &bytes);
        let again = said.map(|state| state.to_bytes(&other).to_vec());
        let expected = saved::state(&bytes, STATE_BYTES, &other.to_bytes());
        taken(tally, "state elsewhere", &bytes, again, expected)?;

        let bytes = harm::any(dice, &own, &form);
        let again = Configuration::from_bytes(&bytes).map(|taken| taken.to_bytes().to_vec());
        let expected = saved::form(&bytes, CONFIGURATION, CONFIGURATION_BYTES);
        taken(tally, "configuration", &bytes, again, expected)?;
    }
    Ok(())
}

/// What was said of some bytes: that they are taken, and saved again they are the same; or why not.
fn taken(
    tally: &mut Tally,
    what: &str,
    bytes: &[u8],
    again: Result<Vec<u8>, SavedError>,
    expected: Result<(), SavedError>,
) -> Result<(), String> {
    tally.saved.met(match again {
        Ok(_) => 0,
        Err(SavedError::OtherForm) => 1,
        Err(SavedError::OtherVersion(_)) => 2,
        Err(SavedError::Cut { .. }) => 3,
        Err(SavedError::TooLong { .. }) => 4,
        Err(SavedError::Damaged) => 5,
        Err(SavedError::OtherConfiguration) => 6,
    });
    let expected = expected.map(|()| bytes.to_vec());
    same(what, again, expected, || format!("form: {}", hex(bytes)))
}
