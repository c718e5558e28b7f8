//! The four functions of the C boundary whose refusals hand back more than `tamezohishu` shows: "with every other number
//! zero", "the state handed back on refusal is all zero", "its refusal and 0". Declared here from the header a second time.

#[repr(C)]
pub struct Judged {
    pub answer: u8,
    pub id: u16,
    pub count: u8,
}

#[repr(C)]
pub struct Built {
    pub answer: u8,
    pub written: u16,
}

#[repr(C)]
pub struct Numbers {
    pub ground: u16,
    pub fault: u16,
    pub base: u16,
    pub nroutes: usize,
    pub nprotected: usize,
    pub nrows: usize,
}

#[repr(C)]
pub struct Config {
    pub numbers: Numbers,
    pub routeids: [u16; 128],
    pub dests: [u8; 128],
    pub protected_ids: [u16; 32],
    pub faultids: [u16; 32],
    pub responses: [u16; 32],
    pub latching: [u8; 32],
    pub argcounts: [u8; 32],
    pub args: [u8; 512],
}

#[repr(C)]
pub struct Run {
    pub armed: u8,
    pub ticks: u16,
    pub counts: [u16; 7],
    pub states: [u8; 32],
}

#[repr(C)]
pub struct Loaded {
    pub answer: u8,
    pub offset: usize,
    pub config: Config,
    pub run: Run,
}

#[repr(C)]
pub struct Replayed {
    pub load: u8,
    pub offset: usize,
    pub stop: u8,
    pub read: usize,
    pub count: usize,
    pub wrote: usize,
    pub counts: [u16; 7],
}

extern "C" {
    fn tz_judge(packet: *const u8, length: usize) -> Judged;
    fn tz_build(
        apid: u16,
        count: u16,
        id: u16,
        args: *const u8,
        length: usize,
        pads: u16,
        out: *mut u8,
        room: usize,
    ) -> Built;
    fn tz_load(image: *const u8, length: usize) -> Loaded;
    fn tz_replay(
        image: *const u8,
        image_length: usize,
        recording: *const u8,
        length: usize,
        out: *mut u8,
        room: usize,
    ) -> Replayed;
}

pub fn judge(packet: &[u8]) -> Judged {
    // SAFETY: the pointer is not null and has so many bytes.
    unsafe { tz_judge(packet.as_ptr(), packet.len()) }
}

pub fn build(apid: u16, count: u16, id: u16, arguments: &[u8], pads: u16, out: &mut [u8]) -> Built {
    let (args, length) = (arguments.as_ptr(), arguments.len());
    // SAFETY: the pointers are not null and have so many bytes, and `out` does not overlap the arguments.
    unsafe {
        tz_build(
            apid,
            count,
            id,
            args,
            length,
            pads,
            out.as_mut_ptr(),
            out.len(),
        )
    }
}

pub fn load(image: &[u8]) -> Loaded {
    // SAFETY: as in `judge`.
    unsafe { tz_load(image.as_ptr(), image.len()) }
}

pub fn replay(image: &[u8], recording: &[u8], out: &mut [u8]) -> Replayed {
    // SAFETY: the pointers are not null and have so many bytes, and `out` overlaps neither input.
    unsafe {
        tz_replay(
            image.as_ptr(),
            image.len(),
            recording.as_ptr(),
            recording.len(),
            out.as_mut_ptr(),
            out.len(),
        )
    }
}
