//! The sizes of the tables, of outputs and of what stands in them, as the header has them.

/// Most routes of a configuration.
pub const ROUTES: usize = 128;
/// Most protected ids of a configuration.
pub const PROTECTED_IDS: usize = 32;
/// Most fault rows of a configuration.
pub const ROWS: usize = 32;
/// Most argument bytes of a fault row.
pub const ROW_ARGUMENTS: usize = 16;
/// Output room that a step asks for, in bytes, whatever it writes.
pub const ROOM: usize = 260;
/// The numbers of a reply, in bytes: answer, command id, destination, bytes written. The command dispatched stands behind them.
pub const REPLY_HEAD: usize = 6;
/// Output room that an event of a replay asks for: the numbers of its reply and a step's room.
pub const REPLY_ROOM: usize = REPLY_HEAD + ROOM;
/// The longest packet that the builder makes, in bytes: ten, 255 arguments and 127 pads.
pub const LONGEST_BUILT: usize = 10 + 255 + 127;
