//! The six parts. A case makes its input from its dice, gives it to both sides and compares; a difference is told with the
//! bytes that show it.

mod both;
mod builds;
mod images;
mod packets;
mod saved;
mod sessions;
mod states;

use crate::dice::Dice;
use crate::tally::Tally;

/// One case: nothing, or what differs.
pub type Case = fn(&mut Dice, &mut Tally) -> Result<(), String>;

pub struct Part {
    pub name: &'static str,
    /// How many cases a run has that was not told otherwise.
    pub cases: u64,
    pub case: Case,
}

/// The parts, in their order. The place of a part goes into its dice: put new ones at the end.
pub const PARTS: [Part; 6] = [
    Part {
        name: "packets",
        cases: 2_000_000,
        case: packets::case,
    },
    Part {
        name: "images",
        cases: 40_000,
        case: images::case,
    },
    Part {
        name: "sessions",
        cases: 60,
        case: sessions::case,
    },
    Part {
        name: "states",
        cases: 40_000,
        case: states::case,
    },
    Part {
        name: "builds",
        cases: 200_000,
        case: builds::case,
    },
    Part {
        name: "saved",
        cases: 2_000,
        case: saved::case,
    },
];

/// What differs, told only where something does.
pub fn same<T: PartialEq + std::fmt::Debug>(
    what: &str,
    library: T,
    reading: T,
    input: impl FnOnce() -> String,
) -> Result<(), String> {
    if library == reading {
        return Ok(());
    }
    Err(format!(
        "{what}: the library has {library:?}, the reading {reading:?}\n{}",
        input()
    ))
}
