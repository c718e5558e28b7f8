//! The step program of "Configuration C and its session".

use crate::load::{le16, load, record, Record};
use crate::step::{step_fault, step_packet, step_tick};

/// What the step program prints. `image` is the content of `path.cfg` ("A file that
/// can't be opened counts as an empty image": give an empty one), `input` the whole
/// of standard input.
pub fn session(image: &[u8], input: &[u8]) -> String {
    // "of a longer file the first 65,536 bytes are the image"
    let image = match image.get(..65_536) {
        Some(first) => first,
        None => image,
    };

    // "Its first line is the load answer and offset"
    let loaded = load(image);
    let mut printed = format!("{} {}\n", loaded.answer, loaded.offset);

    // "After a load refusal, ... it writes `bad` and ends."
    if loaded.answer != 0 {
        printed.push_str("bad\n");
        return printed;
    }
    let config = loaded.config;
    let mut run = loaded.run;

    // "Where the input ends between records it just ends."
    let mut offset: usize = 0;
    while offset < input.len() {
        // "records from standard input in the same length and kind form"
        let (kind, body, next) = match record(input, offset) {
            Record::Whole { kind, body, next } => (kind, body, next),
            // "or a record that is cut ... it writes `bad` and ends."
            Record::Cut => {
                printed.push_str("bad\n");
                return printed;
            }
        };

        // "Each step is given 260 bytes of output room."
        let mut room: [u8; 260] = [0; 260];
        let answer = match (kind, body.len()) {
            // "16 a packet"
            (16, _) => step_packet(&config, &mut run, body, &mut room),
            // "17 a tick (empty body)"
            (17, 0) => step_tick(&config, &mut run),
            // "18 a fault (2-byte id, little-endian)"
            (18, 2) => step_fault(&config, &mut run, le16(body, 0), &mut room),
            // "of another kind or of wrong length, it writes `bad` and ends."
            _ => {
                printed.push_str("bad\n");
                return printed;
            }
        };

        // "then one line a step, the four numbers"
        printed.push_str(&format!(
            "{} {} {} {}\n",
            answer.answer, answer.id, answer.dest, answer.written
        ));
        offset = next;
    }
    printed
}
