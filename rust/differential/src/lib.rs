//! # The proved library beside an independent reading, on made-up input
//!
//! The crate `reading` was written from documents 01 and 02 alone, without sight of the proved code. Here both get the same
//! packets, images, sessions, states and fields of packets, and everything that comes back is compared: numbers, states, output
//! bytes, and the bytes that were to stay. A proof shows that the code meets its definitions; this shows that the definitions,
//! the compiler and the C boundary meet what another reader took from the papers.
//!
//! The input is made from a seed and nothing else ([`dice`]), so every case can be made again: [`parts`] has the six parts,
//! [`make`] what they make, [`oracle`] the replay of a recording by the reading's steps, [`saved`] the saved forms by code of its
//! own, [`tally`] how often each number was met. A run in which a number was never met counts as a failure: it has shown less than it claims.

pub mod dice;
pub mod make;
pub mod mirror;
pub mod oracle;
pub mod parts;
pub mod raw;
pub mod saved;
pub mod tally;
