//! The C boundary, as `include/tamezohishu.h` has it. `tests/layout.c` holds the same sizes and places against the header.
//!
//! The functions take any bytes and any structs, so a call owes C's own rules only: a pointer to so many bytes, not null even
//! where there are none. A Rust slice keeps these: its pointer is never null, and nothing else has a `&mut [u8]` meanwhile. A
//! step is lent the columns of a configuration and the fault states of a run, each as a pointer to its array.

use crate::sizes::{PROTECTED_IDS, ROUTES, ROWS, ROW_ARGUMENTS};

/// Which structs, signatures and numbers these are: `TZ_ABI` of the header.
pub const ABI: u32 = 3;

#[repr(C)]
#[derive(Clone, Copy, PartialEq, Eq, Debug)]
pub struct Settings {
    pub ground: u16,
    pub fault: u16,
    pub base: u16,
}

#[repr(C)]
#[derive(Clone, Copy, PartialEq, Eq, Debug)]
pub struct Numbers {
    pub settings: Settings,
    pub nroutes: usize,
    pub nprotected: usize,
    pub nrows: usize,
}

#[repr(C)]
#[derive(Clone, Copy, PartialEq, Eq, Debug)]
pub struct Config {
    pub numbers: Numbers,
    pub routeids: [u16; ROUTES],
    pub dests: [u8; ROUTES],
    pub protected_ids: [u16; PROTECTED_IDS],
    pub faultids: [u16; ROWS],
    pub responses: [u16; ROWS],
    pub latching: [u8; ROWS],
    pub argcounts: [u8; ROWS],
    pub args: [u8; ROWS * ROW_ARGUMENTS],
}

#[repr(C)]
#[derive(Clone, Copy, PartialEq, Eq, Debug)]
pub struct Counts {
    pub a: u16,
    pub r: u16,
    pub d: u16,
    pub p: u16,
    pub u: u16,
    pub i: u16,
    pub f: u16,
}

/// `armed` is a byte and no `bool`: a run from elsewhere may hold any, and the library judges it.
#[repr(C)]
#[derive(Clone, Copy, PartialEq, Eq, Debug)]
pub struct Standing {
    pub armed: u8,
    pub ticks: u16,
    pub counts: Counts,
}

#[repr(C)]
#[derive(Clone, Copy, PartialEq, Eq, Debug)]
pub struct Run {
    pub standing: Standing,
    pub states: [u8; ROWS],
}

#[repr(C)]
pub struct Judged {
    pub answer: u8,
    pub id: u16,
    pub count: u8,
}

#[repr(C)]
pub struct Part {
    pub offset: usize,
    pub length: usize,
}

#[repr(C)]
pub struct Built {
    pub answer: u8,
    pub written: u16,
}

#[repr(C)]
pub struct Loaded {
    pub answer: u8,
    pub offset: usize,
    pub config: Config,
    pub run: Run,
}

#[repr(C)]
pub struct Answer {
    pub answer: u8,
    pub id: u16,
    pub dest: u8,
    pub written: u16,
}

/// What a step leaves beside the fault states that it was lent.
#[repr(C)]
pub struct Left {
    pub standing: Standing,
    pub answer: Answer,
}

/// What a piece of a recording comes to, beside the fault states that it was lent.
#[repr(C)]
pub struct Reached {
    pub standing: Standing,
    pub stop: u8,
    pub read: usize,
    pub count: usize,
    pub wrote: usize,
}

#[repr(C)]
pub struct Replayed {
    pub load: u8,
    pub offset: usize,
    pub stop: u8,
    pub read: usize,
    pub count: usize,
    pub wrote: usize,
    pub counts: Counts,
}

extern "C" {
    pub fn tz_abi() -> u32;
    pub fn tz_judge(packet: *const u8, length: usize) -> Judged;
    pub fn tz_arguments(packet: *const u8, length: usize) -> Part;
    pub fn tz_build(
        apid: u16,
        count: u16,
        id: u16,
        args: *const u8,
        length: usize,
        pads: u16,
        out: *mut u8,
        room: usize,
    ) -> Built;
    pub fn tz_load(image: *const u8, length: usize) -> Loaded;
    pub fn tz_replay(
        image: *const u8,
        image_length: usize,
        recording: *const u8,
        length: usize,
        out: *mut u8,
        room: usize,
    ) -> Replayed;
}

/// Functions that are lent a configuration and a run: the type of the fault states, then what each takes beside. A function of a
/// shorter name stands before each: it lends the two, calls, and takes the rest of the run back. What is lent is said here once.
macro_rules! lent {
    ($($name:ident = $function:ident($states:ty $(; $($own:ident: $type:ty),+)?) -> $left:ty;)+) => {
        extern "C" {
            $(fn $function(
                numbers: Numbers,
                routeids: *const [u16; ROUTES],
                dests: *const [u8; ROUTES],
                protected_ids: *const [u16; PROTECTED_IDS],
                faultids: *const [u16; ROWS],
                responses: *const [u16; ROWS],
                latching: *const [u8; ROWS],
                argcounts: *const [u8; ROWS],
                args: *const [u8; ROWS * ROW_ARGUMENTS],
                standing: Standing,
                states: $states,
                $($($own: $type,)+)?
            ) -> $left;)+
        }

        $(/// # Safety
        /// Each pointer is not null and has so many bytes behind it, and nothing else has those of `out`.
        #[inline]
        pub unsafe fn $name(config: &Config, run: &mut Run $($(, $own: $type)+)?) -> $left {
            // SAFETY: each column and the fault states are arrays of the length that is asked for, and nothing else has the
            // fault states; the caller answers for the pointers that he hands in.
            let left = unsafe {
                $function(
                    config.numbers,
                    &config.routeids,
                    &config.dests,
                    &config.protected_ids,
                    &config.faultids,
                    &config.responses,
                    &config.latching,
                    &config.argcounts,
                    &config.args,
                    run.standing,
                    &mut run.states,
                    $($($own,)+)?
                )
            };
            run.standing = left.standing;
            left
        })+
    };
}

lent! {
    packet = tz_lent_packet(
        *mut [u8; ROWS]; packet: *const u8, length: usize, out: *mut u8, room: usize
    ) -> Left;
    tick = tz_lent_tick(*const [u8; ROWS]) -> Left;
    fault = tz_lent_fault(*mut [u8; ROWS]; fault: u16, out: *mut u8, room: usize) -> Left;
    resume = tz_lent_resume(
        *mut [u8; ROWS]; recording: *const u8, length: usize, out: *mut u8, room: usize
    ) -> Reached;
}

#[cfg(test)]
mod tests {
    use super::*;
    use crate::sizes::{LONGEST_BUILT, REPLY_ROOM, ROOM};
    use std::mem::{offset_of, size_of};

    /// The same numbers stand in `tests/layout.c`, which a C compiler holds against the header.
    #[test]
    fn sizes_and_places() {
        assert_eq!(size_of::<Settings>(), 6);
        assert_eq!(offset_of!(Settings, base), 4);
        assert_eq!(size_of::<Numbers>(), 32);
        assert_eq!(offset_of!(Numbers, nroutes), 8);
        assert_eq!(offset_of!(Numbers, nrows), 24);
        assert_eq!(size_of::<Config>(), 1184);
        assert_eq!(offset_of!(Config, routeids), 32);
        assert_eq!(offset_of!(Config, dests), 288);
        assert_eq!(offset_of!(Config, protected_ids), 416);
        assert_eq!(offset_of!(Config, faultids), 480);
        assert_eq!(offset_of!(Config, responses), 544);
        assert_eq!(offset_of!(Config, latching), 608);
        assert_eq!(offset_of!(Config, argcounts), 640);
        assert_eq!(offset_of!(Config, args), 672);
        assert_eq!(size_of::<Counts>(), 14);
        assert_eq!(size_of::<Standing>(), 18);
        assert_eq!(offset_of!(Standing, ticks), 2);
        assert_eq!(offset_of!(Standing, counts), 4);
        assert_eq!(size_of::<Run>(), 50);
        assert_eq!(offset_of!(Run, states), 18);
        assert_eq!(size_of::<Judged>(), 6);
        assert_eq!(offset_of!(Judged, count), 4);
        assert_eq!(size_of::<Part>(), 16);
        assert_eq!(size_of::<Built>(), 4);
        assert_eq!(offset_of!(Built, written), 2);
        assert_eq!(size_of::<Loaded>(), 1256);
        assert_eq!(offset_of!(Loaded, config), 16);
        assert_eq!(offset_of!(Loaded, run), 1200);
        assert_eq!(size_of::<Answer>(), 8);
        assert_eq!(offset_of!(Answer, written), 6);
        assert_eq!(size_of::<Left>(), 26);
        assert_eq!(offset_of!(Left, answer), 18);
        assert_eq!(size_of::<Reached>(), 48);
        assert_eq!(offset_of!(Reached, stop), 18);
        assert_eq!(offset_of!(Reached, read), 24);
        assert_eq!(offset_of!(Reached, wrote), 40);
        assert_eq!(size_of::<Replayed>(), 64);
        assert_eq!(offset_of!(Replayed, stop), 16);
        assert_eq!(offset_of!(Replayed, wrote), 40);
        assert_eq!(offset_of!(Replayed, counts), 48);
        assert_eq!((ROUTES, PROTECTED_IDS), (128, 32));
        assert_eq!((ROWS, ROW_ARGUMENTS), (32, 16));
        assert_eq!((ROOM, REPLY_ROOM, LONGEST_BUILT), (260, 266, 392));
    }
}
