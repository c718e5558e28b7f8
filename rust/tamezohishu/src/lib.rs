//! # The proved onboard command path, for ground programs in Rust
//!
//! The path takes telecommand packets, clock ticks and fault numbers, and gives back commands for destinations on board. It is
//! written and proved in another language and linked as a static library; this crate calls it through its C boundary
//! (`include/tamezohishu.h`) and adds names, and nothing else: no rule of the path is decided here. So a ground program that
//! asks "what would the satellite answer" gets the answer of the proved code itself.
//!
//! - [`check_archive`] says whether the archive that was linked goes with this crate; a program asks it first.
//! - [`Configuration::load`] reads a configuration image, and gives the configuration and the [`State`] it starts in.
//! - [`State::packet`], [`State::tick`] and [`State::fault`] are the steps. Each gives an [`Answer`] of four numbers.
//! - [`judge`] and [`arguments`] ask about a packet by itself.
//! - [`build`] makes a packet from its [`Fields`], [`build_into`] the same in a lent buffer; what it makes, [`judge`] accepts.
//! - [`replay`] runs a whole [`Recording`] under an image, [`State::resume`] a piece of one.
//! - [`State::to_bytes`] and [`State::from_bytes`] keep a state between two runs of a program, [`Configuration::to_bytes`] and
//!   [`Configuration::from_bytes`] a configuration. Both forms have a check value, a state that of its configuration too, so
//!   that damage and a mix-up are refused ([`SavedError`]). That is all that is checked here: the library judges a state at
//!   each step, and steps on one that breaks its rules answer [`Outcome::BadState`].
//!
//! Nothing here panics, whatever the bytes. A number that this crate has no name for is kept (`Other`).
//!
//! ```
//! use tamezohishu::{Configuration, Outcome, ROOM};
//!
//! # fn main() -> Result<(), tamezohishu::LoadError> {
//! // ground source 1, fault source 2, own ids from 100; command 20 goes to destination 2 and is protected
//! let image = [6, 0, 1, 0, 1, 0, 2, 0, 100, 0, 3, 0, 2, 0, 20, 0, 2, 2, 0, 3, 0, 20, 0];
//! let (configuration, mut state) = Configuration::load(&image)?;
//! let command = [0x18, 0x01, 0xC0, 0x00, 0x00, 0x03, 0x00, 0xCE, 0x00, 0x14];
//! let arm = [0x18, 0x01, 0xC0, 0x00, 0x00, 0x04, 0x00, 0xBB, 0x00, 0x64, 0x02];
//! let mut out = [0; ROOM];
//!
//! let answer = state.packet(&configuration, &command, &mut out);
//! assert_eq!(answer.outcome, Outcome::Protected);
//! assert_eq!(answer.outcome.to_string(), "protected and unarmed");
//!
//! assert_eq!(state.packet(&configuration, &arm, &mut out).outcome, Outcome::Armed);
//! let answer = state.packet(&configuration, &command, &mut out);
//! assert_eq!(answer.to_string(), "10 20 2 5"); // dispatched, command 20, destination 2, 5 bytes
//! assert_eq!(out[..5], [0, 1, 0, 20, 0]);
//! assert_eq!(state.counters().accepted, 3);
//! # Ok(())
//! # }
//! ```

mod archive;
mod builder;
mod bytes;
mod check;
mod configuration;
mod ffi;
mod load;
mod numbers;
mod packet;
mod replay;
mod saved;
mod sizes;
mod state;

pub use archive::{check_archive, Mismatch};
pub use builder::{build, build_into, Fields};
pub use bytes::{CONFIGURATION_BYTES, STATE_BYTES};
pub use configuration::{Configuration, FaultRow, Route};
pub use load::LoadError;
pub use numbers::{BuildRefusal, FaultState, LoadRefusal, Outcome, Refusal, Stop};
pub use packet::{arguments, judge, Judged};
pub use replay::{replay, Piece, Recording, Replay, Replies, Reply, TooLong};
pub use saved::SavedError;
pub use sizes::{
    LONGEST_BUILT, PROTECTED_IDS, REPLY_HEAD, REPLY_ROOM, ROOM, ROUTES, ROWS, ROW_ARGUMENTS,
};
pub use state::{Answer, Counters, State};
