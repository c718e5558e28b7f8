//! The numbers that the library answers with, as enums. Each keeps a number that it has no name for.

use std::fmt;

/// An enum of named numbers and `Other`, with its words for `Display`.
macro_rules! numbers {
    ($(#[$about:meta])* $name:ident { $($case:ident = $number:literal: $words:literal,)* }) => {
        $(#[$about])*
        #[derive(Clone, Copy, PartialEq, Eq, Hash, Debug)]
        pub enum $name {
            $(#[doc = $words] $case,)*
            /// A number that has no name here. Made from a number, it is never one of the named.
            Other(u8),
        }

        impl $name {
            /// Every named case, by rising number.
            pub const NAMED: &'static [$name] = &[$($name::$case,)*];

            /// The number at the boundary.
            pub fn number(self) -> u8 {
                match self {
                    $($name::$case => $number,)*
                    $name::Other(number) => number,
                }
            }
        }

        impl From<u8> for $name {
            fn from(number: u8) -> $name {
                match number {
                    $($number => $name::$case,)*
                    other => $name::Other(other),
                }
            }
        }

        impl From<$name> for u8 {
            fn from(named: $name) -> u8 {
                named.number()
            }
        }

        impl fmt::Display for $name {
            fn fmt(&self, f: &mut fmt::Formatter<'_>) -> fmt::Result {
                match self {
                    $($name::$case => f.write_str($words),)*
                    $name::Other(number) => write!(f, "number {number}, which has no name"),
                }
            }
        }
    };
}

numbers! {
    /// Why an image was refused: the first refusal that fits its first bad record.
    LoadRefusal {
        PastEnd = 1: "header or body passes the end of the image",
        BadKind = 2: "kind not 1 to 4",
        BadLength = 3: "body length wrong for the kind, or n above 16",
        BadOrder = 4: "first record not kind 1, a second kind 1, a kind that falls, an id not above the one before",
        Empty = 5: "empty image",
        TooMany = 6: "one row more than the limit",
        BrokenRule = 7: "any other rule of the image broken",
    }
}

numbers! {
    /// What a step answered.
    Outcome {
        Dispatched = 10: "command dispatched",
        Armed = 11: "arm taken",
        Done = 12: "own command done",
        Quiet = 13: "fault known, its response disabled or latched",
        Tick = 14: "tick",
        Unarmed = 15: "tick that ended the armed state",
        BadState = 20: "state breaks its rules",
        NoRoom = 21: "output room below 260 bytes",
        Short = 22: "packet below 6 bytes",
        BadSize = 23: "packet size not 7 + length field",
        BadVersion = 24: "version not 0",
        BadType = 25: "type not telecommand",
        NoSecondary = 26: "no secondary header",
        BadXor = 27: "XOR not zero",
        ShortData = 28: "data length - pads below 4",
        TooLong = 29: "more than 255 arguments",
        Protected = 30: "protected and unarmed",
        BadCount = 31: "own command, wrong argument count",
        NoFault = 32: "own command, fault id not in the table",
        Unknown = 33: "id neither own nor routed",
        UnknownFault = 34: "fault id not in the table",
    }
}

numbers! {
    /// Why the judge refused a packet; the same numbers as in [`Outcome`].
    Refusal {
        Short = 22: "packet below 6 bytes",
        BadSize = 23: "packet size not 7 + length field",
        BadVersion = 24: "version not 0",
        BadType = 25: "type not telecommand",
        NoSecondary = 26: "no secondary header",
        BadXor = 27: "XOR not zero",
        ShortData = 28: "data length - pads below 4",
        TooLong = 29: "more than 255 arguments",
    }
}

numbers! {
    /// Why the builder refused: the first that fits, in the order of the numbers.
    BuildRefusal {
        ApidTooHigh = 40: "APID above 2,047",
        CountTooHigh = 41: "sequence count above 16,383",
        TooManyArguments = 42: "more than 255 arguments",
        TooManyPads = 43: "more than 127 pads",
        OutputTooSmall = 44: "output too small",
    }
}

numbers! {
    /// Why a replay stopped. 60 to 63 are numbers of their own: what was answered before them stands.
    Stop {
        End = 0: "all of the recording was read",
        BadState = 20: "state breaks its rules",
        Cut = 60: "a record is cut",
        OtherKind = 61: "a record is of another kind than 16, 17 and 18",
        WrongLength = 62: "a record has a wrong length for its kind",
        OutputFull = 63: "the output is full: an event was left, and less than 266 bytes for it",
    }
}

numbers! {
    /// What a fault row does at its fault.
    FaultState {
        Disabled = 0: "disabled",
        Enabled = 1: "enabled",
        Latched = 2: "latched",
    }
}

impl std::error::Error for Refusal {}
impl std::error::Error for BuildRefusal {}

impl Outcome {
    /// Whether the step was a packet's and the judge refused it: whether the number is a [`Refusal`]'s.
    pub fn is_rejected(self) -> bool {
        !matches!(Refusal::from(self.number()), Refusal::Other(_))
    }
}

impl Stop {
    /// Whether the stop is at a bad record (60, 61 or 62).
    pub fn is_bad_record(self) -> bool {
        (60..=62).contains(&self.number())
    }
}

#[cfg(test)]
mod tests {
    use super::*;
    use crate::sizes::{REPLY_ROOM, ROOM};

    #[test]
    fn numbers_go_both_ways() {
        for number in 0..=255u8 {
            assert_eq!(LoadRefusal::from(number).number(), number);
            assert_eq!(Outcome::from(number).number(), number);
            assert_eq!(Refusal::from(number).number(), number);
            assert_eq!(BuildRefusal::from(number).number(), number);
            assert_eq!(Stop::from(number).number(), number);
            assert_eq!(FaultState::from(number).number(), number);
        }
        assert_eq!(Outcome::from(16), Outcome::Other(16));
        assert_eq!(
            Outcome::Other(16).to_string(),
            "number 16, which has no name"
        );
    }

    #[test]
    fn every_number_of_the_header_has_a_name() {
        let named = |all: &[Outcome]| all.iter().map(|o| o.number()).collect::<Vec<_>>();
        let header: Vec<u8> = (10..=15).chain(20..=34).collect();
        assert_eq!(named(Outcome::NAMED), header);
        assert_eq!(LoadRefusal::NAMED.len(), 7);
        assert_eq!(Refusal::NAMED.len(), 8);
        let built: Vec<u8> = BuildRefusal::NAMED.iter().map(|r| r.number()).collect();
        assert_eq!(built, [40, 41, 42, 43, 44]);
        let stops: Vec<u8> = Stop::NAMED.iter().map(|s| s.number()).collect();
        assert_eq!(stops, [0, 20, 60, 61, 62, 63]);
        for stop in Stop::NAMED {
            assert_eq!(stop.is_bad_record(), (60..63).contains(&stop.number()));
        }
        for refusal in Refusal::NAMED {
            let outcome = Outcome::from(refusal.number());
            assert_eq!(outcome.to_string(), refusal.to_string());
        }
    }

    #[test]
    fn which_are_rejections() {
        let all = (0..=255).filter(|number| Outcome::from(*number).is_rejected());
        assert_eq!(all.collect::<Vec<u8>>(), [22, 23, 24, 25, 26, 27, 28, 29]);
    }

    /// The words have the numbers that [`crate::sizes`] has.
    #[test]
    fn words_name_the_rooms() {
        let room = format!("output room below {ROOM} bytes");
        assert_eq!(Outcome::NoRoom.to_string(), room);
        let full = format!("less than {REPLY_ROOM} bytes for it");
        assert!(Stop::OutputFull.to_string().ends_with(&full));
    }
}
