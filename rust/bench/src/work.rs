//! The input: images, packets and recordings.

use differential::dice::Dice;
use differential::make::event::{self, Event};
use differential::make::image::{Plan, Row};
use differential::make::packet::well_formed;

/// Events of a recording.
pub const EVENTS: usize = 4000;

/// A good image with so many rows of each kind. Ids lie apart, so that a search has to look at them.
pub fn image(routes: usize, protected: usize, rows: usize) -> Vec<u8> {
    let id = |k: usize| 100 + 37 * k as u16;
    let plan = Plan {
        ground: 1,
        fault: 2,
        base: 60_000,
        routes: (0..routes).map(|k| (id(k), 1 + (k % 31) as u8)).collect(),
        protected: (0..protected).map(|k| id(routes * k / protected)).collect(),
        rows: (0..rows)
            .map(|k| Row {
                fault: fault(k),
                response: id(k * 5 % routes),
                start: 1,
                latching: (k % 2) as u8,
                arguments: vec![k as u8; 16],
            })
            .collect(),
    };
    plan.image()
}

/// All tables full.
pub fn full() -> Vec<u8> {
    image(128, 32, 32)
}

/// The fault id of a row.
pub fn fault(row: usize) -> u16 {
    5 + 11 * row as u16
}

/// A routed id that is not protected, in an image of so many routes.
fn routed(dice: &mut Dice, routes: usize) -> u16 {
    let config = reading::load(&image(routes, routes / 4, 0)).config;
    loop {
        let id = config.routeids[dice.below(routes)];
        if !config.protected[..config.nprotected].contains(&id) {
            return id;
        }
    }
}

/// A packet of so many bytes, 10 or more, well-formed but perhaps too long, for a routed command.
pub fn packet(dice: &mut Dice, size: usize, routes: usize) -> Vec<u8> {
    let mut bytes = Vec::new();
    let arguments = dice.bytes(size - 10);
    let id = routed(dice, routes);
    well_formed(dice, &mut bytes, id, &arguments, 0);
    bytes
}

/// A recording of one kind of event, made again for each.
pub fn recording(mut event: impl FnMut(&mut Dice) -> Event) -> Vec<u8> {
    let mut dice = Dice::new(1, 1, 1);
    let mut recording = Vec::new();
    for _ in 0..EVENTS {
        event(&mut dice).record(&mut recording);
    }
    recording
}

/// Packets of so many bytes, all of them dispatched under an image of so many routes.
pub fn packets(size: usize, routes: usize) -> Vec<u8> {
    // A few different packets, again and again: making them is slow.
    let mut dice = Dice::new(1, 2, 3);
    let some: Vec<_> = (0..64).map(|_| packet(&mut dice, size, routes)).collect();
    recording(|dice| Event::Packet(some[dice.below(64)].clone()))
}

pub fn ticks() -> Vec<u8> {
    recording(|_| Event::Tick)
}

/// Faults of all rows. Half of the rows latch, and are quiet after their first fault.
pub fn faults(rows: usize) -> Vec<u8> {
    recording(|dice| Event::Fault(fault(dice.below(rows))))
}

/// Everything: accepted and rejected packets, ticks and faults, as the differential tests make them.
pub fn mixed() -> Vec<u8> {
    let config = reading::load(&full()).config;
    recording(|dice| loop {
        let event = event::any(dice, &config);
        // Packets as long as a record would be all that is measured.
        if !matches!(&event, Event::Packet(packet) if packet.len() > 400) {
            break event;
        }
    })
}
