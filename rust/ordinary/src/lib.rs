//! # The command path in ordinary Rust
//!
//! The same path as the proved library's, as one would write it in Rust for speed and clarity: a configuration that was
//! validated when it was loaded, a run that is changed in place, slices, binary search, no allocation. It is what the
//! benchmarks measure the proved library against, and good for nothing else: nothing is proved of it. Its tests hold it to the
//! independent reading, so that both sides of a measurement do the same work.
//!
//! [`step_packet`], [`step_tick`] and [`step_fault`] take any state and judge it, as the library's public steps do. [`inner`]
//! has the steps that take a state that keeps its rules; [`replay`] judges once and then uses those. [`build`] makes a packet
//! from its fields, for whoever sends one.
#![forbid(unsafe_code)]

mod answer;
mod build;
mod config;
mod load;
mod packet;
mod record;
mod replay;
mod rules;
mod step;

pub use answer::{Answer, Outcome, REPLY_HEAD, REPLY_ROOM, ROOM};
pub use build::{build, BuildRefusal, Fields};
pub use config::{Config, Run, ROUTES, ROWS, ROW_ARGS};
pub use load::{load, LoadError};
pub use packet::{arguments, judge, Command};
pub use replay::{replay, resume, Piece, Replayed, Stop};
pub use rules::keeps_rules;
pub use step::{inner, step_fault, step_packet, step_tick};
