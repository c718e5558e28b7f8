//! What is measured. Each first sees that both sides give the same: a measurement of different work says nothing.

use crate::clock::{side_by_side, Measured};
use crate::work::{self, EVENTS};
use differential::dice::Dice;
use std::hint::black_box;
use tamezohishu::{Configuration, State, LONGEST_BUILT, REPLY_ROOM, ROOM};

/// Measurements that belong together.
pub struct Section {
    pub title: &'static str,
    /// How its buffers were prepared.
    pub about: String,
    /// What a time is the time of.
    pub unit: &'static str,
    pub measured: Vec<Measured>,
}

pub fn all() -> Vec<Section> {
    vec![
        Section {
            title: "Replay with full tables",
            about: "128 routes, 32 protected ids, 32 fault rows; a recording of 4,000 events. Each replay loads the image. The \
                    output has 266 bytes for each event, was written once before, and is the same memory in every round."
                .to_string(),
            unit: "event",
            measured: replays(),
        },
        Section {
            title: "Public steps",
            about: "Full tables. Each call judges the whole state first, on both sides. The library is lent the tables and the \
                    fault states and takes the few other numbers by value, as its header has it; the ordinary version takes \
                    references. `state_check` is a step that is refused for its output room, so nearly the judgement of the \
                    state alone."
                .to_string(),
            unit: "call",
            measured: steps(),
        },
        Section {
            title: "Loading and judging",
            about: format!(
                "The full image has {} bytes. Packets of 10 and 265 bytes are accepted; one of 1,000 bytes is refused \
                    (29) behind the XOR of all of its bytes. The same packet again and again, so it is in the cache.",
                work::full().len()
            ),
            unit: "call",
            measured: loads_and_judges(),
        },
        builds(),
        Section {
            title: "Growth with the packet's length",
            about: "Replay of 4,000 packets of so many bytes, all dispatched, under full tables."
                .to_string(),
            unit: "event",
            measured: by_length(),
        },
        Section {
            title: "Growth with the rows",
            about: "Replay of 4,000 packets of 12 bytes under so many routes (a quarter of them protected), of 4,000 faults \
                    under so many fault rows (and 128 routes), and a step refused for its room under so many routes and rows."
                .to_string(),
            unit: "event or call",
            measured: by_rows(),
        },
    ]
}

fn replay(name: impl Into<String>, image: &[u8], recording: &[u8]) -> Measured {
    let mut out = vec![0; EVENTS * REPLY_ROOM];
    let mut other = out.clone();
    let ours = tamezohishu::replay(image, recording, &mut out).expect("a good image");
    let theirs = ordinary::replay(image, recording, &mut other).expect("a good image");
    assert_eq!((ours.count, theirs.piece.count), (EVENTS, EVENTS));
    assert!(out == other, "both replies are the same");
    side_by_side(
        name,
        EVENTS,
        || {
            let _ = black_box(tamezohishu::replay(
                black_box(image),
                black_box(recording),
                &mut out,
            ));
        },
        || {
            let _ = black_box(ordinary::replay(
                black_box(image),
                black_box(recording),
                &mut other,
            ));
        },
    )
}

fn replays() -> Vec<Measured> {
    let image = work::full();
    vec![
        replay("replay_short_packets", &image, &work::packets(12, 128)),
        replay("replay_long_packets", &image, &work::packets(265, 128)),
        replay("replay_ticks", &image, &work::ticks()),
        replay("replay_faults", &image, &work::faults(32)),
        replay("replay_mixed", &image, &work::mixed()),
    ]
}

fn alike(ours: tamezohishu::Answer, theirs: ordinary::Answer) {
    let ours = (
        ours.outcome.number(),
        ours.id,
        ours.destination,
        ours.written,
    );
    let theirs = (theirs.outcome as u8, theirs.id, theirs.dest, theirs.written);
    assert_eq!(ours, theirs);
}

/// Both sides of a state, for public steps.
struct Sides {
    configuration: Configuration,
    state: State,
    config: ordinary::Config,
    run: ordinary::Run,
}

impl Sides {
    fn new(image: &[u8]) -> Sides {
        let (configuration, state) = Configuration::load(image).expect("a good image");
        let (config, run) = ordinary::load(image).expect("a good image");
        Sides {
            configuration,
            state,
            config,
            run,
        }
    }

    fn packet(mut self, name: impl Into<String>, packet: &[u8], room: usize) -> Measured {
        let (mut out, mut other) = (vec![0; room], vec![0; room]);
        let ours = self.state.packet(&self.configuration, packet, &mut out);
        let theirs = ordinary::step_packet(&self.config, &mut self.run, packet, &mut other);
        alike(ours, theirs);
        assert!(out == other, "both outputs are the same");
        side_by_side(
            name,
            1,
            || {
                let configuration = black_box(&self.configuration);
                black_box(
                    self.state
                        .packet(configuration, black_box(packet), &mut out),
                );
            },
            || {
                let config = black_box(&self.config);
                let run = &mut self.run;
                black_box(ordinary::step_packet(
                    config,
                    run,
                    black_box(packet),
                    &mut other,
                ));
            },
        )
    }

    fn tick(mut self, name: &str) -> Measured {
        let ours = self.state.tick(&self.configuration);
        alike(ours, ordinary::step_tick(&self.config, &mut self.run));
        side_by_side(
            name,
            1,
            || {
                black_box(self.state.tick(black_box(&self.configuration)));
            },
            || {
                black_box(ordinary::step_tick(black_box(&self.config), &mut self.run));
            },
        )
    }

    fn fault(mut self, name: &str, fault: u16) -> Measured {
        let (mut out, mut other) = ([0; ROOM], [0; ROOM]);
        let ours = self.state.fault(&self.configuration, fault, &mut out);
        let theirs = ordinary::step_fault(&self.config, &mut self.run, fault, &mut other);
        alike(ours, theirs);
        assert!(out == other, "both outputs are the same");
        side_by_side(
            name,
            1,
            || {
                let configuration = black_box(&self.configuration);
                black_box(self.state.fault(configuration, black_box(fault), &mut out));
            },
            || {
                let config = black_box(&self.config);
                let run = &mut self.run;
                black_box(ordinary::step_fault(
                    config,
                    run,
                    black_box(fault),
                    &mut other,
                ));
            },
        )
    }
}

fn steps() -> Vec<Measured> {
    let image = work::full();
    let mut dice = Dice::new(1, 1, 2);
    let short = work::packet(&mut dice, 12, 128);
    let long = work::packet(&mut dice, 265, 128);
    vec![
        Sides::new(&image).packet("step_short_packet", &short, ROOM),
        Sides::new(&image).packet("step_long_packet", &long, ROOM),
        Sides::new(&image).tick("step_tick"),
        // Row 20 does not latch, so each fault is dispatched.
        Sides::new(&image).fault("step_fault", work::fault(20)),
        Sides::new(&image).packet("state_check", &short, 0),
    ]
}

fn judge(name: &str, packet: &[u8]) -> Measured {
    let ours = tamezohishu::judge(packet).map_err(|refusal| refusal.number());
    let theirs = ordinary::judge(packet).map_err(|refusal| refusal as u8);
    assert_eq!(ours.map(|j| j.id), theirs.map(|command| command.id));
    side_by_side(
        name,
        1,
        || {
            let _ = black_box(tamezohishu::judge(black_box(packet)));
        },
        || {
            let _ = black_box(ordinary::judge(black_box(packet)));
        },
    )
}

fn loads_and_judges() -> Vec<Measured> {
    let image = work::full();
    let mut dice = Dice::new(1, 1, 3);
    let mut sized = |size| work::packet(&mut dice, size, 128);
    let load = side_by_side(
        "load_full_image",
        1,
        || {
            let _ = black_box(Configuration::load(black_box(&image)));
        },
        || {
            let _ = black_box(ordinary::load(black_box(&image)));
        },
    );
    vec![
        load,
        judge("judge_10_bytes", &sized(10)),
        judge("judge_265_bytes", &sized(265)),
        judge("judge_1000_bytes", &sized(1000)),
    ]
}

fn build(name: &str, arguments: &[u8], pads: u16, room: usize) -> Measured {
    let (mut out, mut other) = (vec![0xEE; room], vec![0xEE; room]);
    let (apid, count, id) = (1_234, 5_678, 0x0A14);
    let fields = tamezohishu::Fields {
        apid,
        count,
        id,
        arguments,
        pads,
    };
    let same_fields = ordinary::Fields {
        apid,
        count,
        id,
        arguments,
        pads,
    };
    let ours = tamezohishu::build_into(&fields, &mut out).map_err(|refusal| refusal.number());
    let theirs = ordinary::build(&same_fields, &mut other).map_err(|refusal| refusal as u8);
    assert_eq!(ours, theirs);
    assert!(out == other, "both outputs are the same");
    side_by_side(
        name,
        1,
        || {
            let _ = black_box(tamezohishu::build_into(black_box(&fields), &mut out));
        },
        || {
            let _ = black_box(ordinary::build(black_box(&same_fields), &mut other));
        },
    )
}

fn builds() -> Section {
    let arguments = Dice::new(1, 1, 5).bytes(255);
    Section {
        title: "Building",
        about: format!(
            "No arguments and no pads (10 bytes), 255 arguments (265 bytes), 255 arguments and 127 pads ({LONGEST_BUILT} bytes); \
             `build_refused` is the last of these in room of one byte less, so it is refused (44) behind every other check. The \
             library is called by `build_into`. The same fields again and again; the output has {LONGEST_BUILT} bytes, was \
             written once before, and is the same memory in every call, so it is in the cache, as the arguments are."
        ),
        unit: "call",
        measured: vec![
            build("build_short", &[], 0, LONGEST_BUILT),
            build("build_long", &arguments, 0, LONGEST_BUILT),
            build("build_longest", &arguments, 127, LONGEST_BUILT),
            build("build_refused", &arguments, 127, LONGEST_BUILT - 1),
        ],
    }
}

fn by_length() -> Vec<Measured> {
    let image = work::full();
    [10, 20, 50, 100, 150, 200, 265]
        .map(|size| {
            let name = format!("length_{size}");
            replay(name, &image, &work::packets(size, 128))
        })
        .into()
}

fn by_rows() -> Vec<Measured> {
    let mut measured = Vec::new();
    for routes in [4, 16, 64, 128] {
        let image = work::image(routes, routes / 4, 0);
        let recording = work::packets(12, routes);
        measured.push(replay(format!("routes_{routes}"), &image, &recording));
    }
    for rows in [1, 8, 32] {
        let image = work::image(128, 32, rows);
        measured.push(replay(format!("rows_{rows}"), &image, &work::faults(rows)));
    }
    let mut dice = Dice::new(1, 1, 4);
    let short = work::packet(&mut dice, 12, 4);
    for (routes, rows) in [(4, 1), (32, 8), (128, 32)] {
        let image = work::image(routes, routes / 4, rows);
        let name = format!("state_check_{routes}_{rows}");
        measured.push(Sides::new(&image).packet(name, &short, 0));
    }
    measured
}
