//! How is measured: both sides in turn, in many short rounds, and of each side the least round. The least is the time with
//! the fewest disturbances by other programs, and rounds in turn let a slow stretch of the machine meet both sides.

use std::sync::OnceLock;
use std::time::{Duration, Instant};

/// What a run is for, where it is not for times: the names alone, or one side of one measurement so many times over, for
/// whoever counts its instructions.
pub enum Instead {
    Names,
    Run {
        name: String,
        proved: bool,
        times: u32,
    },
}

/// Set once, before anything is measured.
pub static INSTEAD: OnceLock<Instead> = OnceLock::new();

/// Rounds of each side.
pub const ROUNDS: usize = 25;
/// About how long a round takes.
pub const ROUND: Duration = Duration::from_millis(4);

/// The least time of one piece of work on each side, in nanoseconds.
pub struct Measured {
    pub name: String,
    pub proved: f64,
    pub rust: f64,
}

impl Measured {
    /// How many times as long the proved library takes.
    pub fn ratio(&self) -> f64 {
        self.proved / self.rust
    }
}

/// A round: the work so many times over.
fn round(work: &mut dyn FnMut(), times: u32) -> f64 {
    let began = Instant::now();
    for _ in 0..times {
        work();
    }
    began.elapsed().as_nanos() as f64 / f64::from(times)
}

/// How many times the work fits into a round.
fn fits(work: &mut dyn FnMut()) -> u32 {
    work();
    let mut times = 1;
    loop {
        let took = round(work, times) * f64::from(times);
        if took * 4.0 >= ROUND.as_nanos() as f64 || times >= 1 << 24 {
            let all = f64::from(times) * ROUND.as_nanos() as f64 / took.max(1.0);
            return (all as u32).max(1);
        }
        times *= 2;
    }
}

/// Measures both sides. `units` is how many events, or calls, one piece of work has.
pub fn side_by_side(
    name: impl Into<String>,
    units: usize,
    mut proved: impl FnMut(),
    mut rust: impl FnMut(),
) -> Measured {
    let name = name.into();
    if let Some(instead) = INSTEAD.get() {
        match instead {
            Instead::Names => println!("{name} {units}"),
            Instead::Run {
                name: wanted,
                proved: first,
                times,
            } if *wanted == name => {
                for _ in 0..*times {
                    if *first {
                        proved();
                    } else {
                        rust();
                    }
                }
            }
            Instead::Run { .. } => {}
        }
        return Measured {
            name,
            proved: 0.0,
            rust: 0.0,
        };
    }
    let (many, more) = (fits(&mut proved), fits(&mut rust));
    let (mut least_proved, mut least_rust) = (f64::INFINITY, f64::INFINITY);
    for _ in 0..ROUNDS {
        least_proved = least_proved.min(round(&mut proved, many));
        least_rust = least_rust.min(round(&mut rust, more));
    }
    Measured {
        name,
        proved: least_proved / units as f64,
        rust: least_rust / units as f64,
    }
}
