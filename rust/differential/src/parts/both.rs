//! A state on both sides, and what is done to both at once: a step, a piece of a recording.

use super::same;
use crate::dice::Dice;
use crate::make::event::Event;
use crate::mirror::{self, hex};
use crate::oracle::{self, Expected};
use crate::tally::Tally;
use reading::{Config, Run};
use tamezohishu::{Configuration, State};

#[derive(Clone)]
pub struct Both {
    pub config: Config,
    pub run: Run,
    /// The armed byte as the boundary has it. More than 1 breaks the rules there, and the reading has no such state.
    armed: u8,
    configuration: Configuration,
    state: State,
    /// The check value of the saved configuration.
    check: [u8; 4],
}

type Four = (u8, u16, u8, u16);

impl Both {
    /// The crate gets its side as saved forms, and takes any that say the truth about themselves.
    pub fn new(config: Config, run: Run, armed: u8) -> Result<Both, String> {
        let saved = mirror::configuration_bytes(&config);
        let refused = |told| format!("a saved form is refused: {told}\n{}", hex(&saved));
        let configuration = Configuration::from_bytes(&saved).map_err(refused)?;
        let check = mirror::check_of(&saved);
        let state = mirror::state_bytes(&run, armed, check);
        let state = State::from_bytes(&configuration, &state).map_err(refused)?;
        Ok(Both {
            config,
            run,
            armed,
            configuration,
            state,
            check,
        })
    }

    pub fn configuration(&self) -> &Configuration {
        &self.configuration
    }

    pub fn state(&self) -> &State {
        &self.state
    }

    /// What shows a difference again.
    fn told(&self, before: &State) -> String {
        let config = mirror::configuration_bytes(&self.config);
        format!(
            "state before (saved form): {}\nconfiguration (saved form): {}",
            hex(&before.to_bytes(&self.configuration)),
            hex(&config)
        )
    }

    fn same_state(&self, before: &State) -> Result<(), String> {
        let armed = if self.armed > 1 {
            self.armed
        } else {
            u8::from(self.run.armed)
        };
        let library = self.state.to_bytes(&self.configuration);
        let reading = mirror::state_bytes(&self.run, armed, self.check);
        if library == reading {
            return Ok(());
        }
        same("state behind it", hex(&library), hex(&reading), || {
            self.told(before)
        })
    }

    /// One step on both sides, with so much room: the four numbers, the state behind it, the output, used or not.
    pub fn step(
        &mut self,
        dice: &mut Dice,
        tally: &mut Tally,
        event: &Event,
        room: usize,
    ) -> Result<(), String> {
        let before = self.state.clone();
        let told =
            |both: &Both| format!("event: {event:02x?}, room {room}\n{}", both.told(&before));

        // Both outputs begin as the same noise, with more behind the room that is lent.
        let mut noise = [0; 616];
        dice.fill(&mut noise);
        let (mut ours, mut theirs) = (noise, noise);
        let library: Four = {
            let (state, configuration) = (&mut self.state, &self.configuration);
            let answer = match event {
                Event::Packet(packet) => state.packet(configuration, packet, &mut ours[..room]),
                Event::Tick => state.tick(configuration),
                Event::Fault(fault) => state.fault(configuration, *fault, &mut ours[..room]),
            };
            let number = answer.outcome.number();
            (number, answer.id, answer.destination, answer.written)
        };
        tally.step.met(library.0);
        let reading: Four = if self.armed > 1 {
            (20, 0, 0, 0)
        } else {
            let (config, run) = (&self.config, &mut self.run);
            let out = &mut theirs[..room];
            let answer = match event {
                Event::Packet(packet) => reading::step_packet(config, run, packet, out),
                Event::Tick => reading::step_tick(config, run),
                Event::Fault(fault) => reading::step_fault(config, run, *fault, out),
            };
            (answer.answer, answer.id, answer.dest, answer.written)
        };
        same("step", library, reading, || told(self))?;
        if library.0 == 20 || library.0 == 21 {
            let stayed = self.state == before && ours == noise;
            same("nothing changed", stayed, true, || told(self))?;
        }
        if ours != theirs {
            same("output", hex(&ours), hex(&theirs), || told(self))?;
        }
        self.same_state(&before)
            .map_err(|e| format!("{e}\nevent: {event:02x?}, room {room}"))
    }

    /// A piece of a recording on both sides, with so much room. Gives what was expected, which is also what came.
    pub fn resume(
        &mut self,
        dice: &mut Dice,
        tally: &mut Tally,
        recording: &[u8],
        room: usize,
    ) -> Result<Expected, String> {
        let before = self.state.clone();
        let expected = if self.armed > 1 {
            Expected {
                stop: 20,
                read: 0,
                count: 0,
                written: Vec::new(),
            }
        } else {
            oracle::resume(&self.config, &mut self.run, recording, room)
        };
        let mut out = dice.bytes(room);
        let rest = out[expected.written.len()..].to_vec();
        let piece = self.state.resume(&self.configuration, recording, &mut out);
        tally.stop.met(piece.stop.number());
        let came = Expected {
            stop: piece.stop.number(),
            read: piece.read,
            count: piece.count,
            written: piece.written.to_vec(),
        };
        let told = |both: &Both| {
            let recording = hex(recording);
            format!(
                "recording: {recording}\nroom {room}\n{}",
                both.told(&before)
            )
        };
        // A difference in long outputs is told by its numbers first.
        same(
            "piece: stop, read, count, wrote",
            (came.stop, came.read, came.count, came.written.len()),
            (
                expected.stop,
                expected.read,
                expected.count,
                expected.written.len(),
            ),
            || told(self),
        )?;
        if came != expected {
            let (ours, theirs) = (hex(&came.written), hex(&expected.written));
            same("piece: replies", ours, theirs, || told(self))?;
        }
        let stayed = out[expected.written.len()..] == rest;
        same("bytes behind the replies stayed", stayed, true, || {
            told(self)
        })?;
        self.same_state(&before)?;
        Ok(expected)
    }
}
