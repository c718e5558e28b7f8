//! How often each number was met, and which were not.

use std::fmt::Write;
use tamezohishu::{BuildRefusal, LoadRefusal, Outcome, Refusal, Stop};

#[derive(Default)]
pub struct Tally {
    pub judge: Numbers,
    pub load: Numbers,
    pub step: Numbers,
    pub stop: Numbers,
    pub build: Numbers,
    /// What keeps an accepted packet from the form that the builder makes: 0 nothing; 1 other sequence flags, 2 the high bit
    /// of the function code, 4 a pad byte that is not zero, or the sum of those that do.
    pub form: Numbers,
    /// What was said of the bytes of a saved form: 0 taken, 1 another form, 2 another version, 3 cut, 4 too long, 5 damaged,
    /// 6 of another configuration.
    pub saved: Numbers,
}

/// How often each number from 0 to 255 was met.
pub struct Numbers([u64; 256]);

impl Default for Numbers {
    fn default() -> Numbers {
        Numbers([0; 256])
    }
}

impl Numbers {
    pub fn met(&mut self, number: u8) {
        self.0[usize::from(number)] += 1;
    }

    pub fn count(&self, number: u8) -> u64 {
        self.0[usize::from(number)]
    }
}

fn named<T: Copy + Into<u8>>(cases: &[T]) -> impl Iterator<Item = u8> + '_ {
    cases.iter().map(|case| (*case).into())
}

/// The numbers of refusals, and 0 for none.
fn or_zero<T: Copy + Into<u8>>(refusals: &[T]) -> Vec<u8> {
    std::iter::once(0).chain(named(refusals)).collect()
}

impl Tally {
    /// The lists, each with the numbers that have to be met: every one that has a name.
    fn lists(&self) -> [(&'static str, &Numbers, Vec<u8>); 7] {
        [
            ("judge", &self.judge, or_zero(Refusal::NAMED)),
            ("loading", &self.load, or_zero(LoadRefusal::NAMED)),
            ("step", &self.step, named(Outcome::NAMED).collect()),
            ("replay", &self.stop, named(Stop::NAMED).collect()),
            ("build", &self.build, or_zero(BuildRefusal::NAMED)),
            ("form", &self.form, (0..=7).collect()),
            ("saved", &self.saved, (0..=6).collect()),
        ]
    }

    /// The table: a line for each list and eight numbers.
    pub fn table(&self) -> String {
        let mut table = String::new();
        for (name, numbers, wanted) in self.lists() {
            for (k, line) in wanted.chunks(8).enumerate() {
                let head = if k == 0 { name } else { "" };
                let _ = write!(table, "{head:8}");
                for number in line {
                    let _ = write!(table, "{:>5}:{:<8}", number, numbers.count(*number));
                }
                table.push('\n');
            }
        }
        table
    }

    /// The numbers that were never met, as words.
    pub fn missing(&self) -> Vec<String> {
        let mut missing = Vec::new();
        for (name, numbers, wanted) in self.lists() {
            let never = wanted.into_iter().filter(|n| numbers.count(*n) == 0);
            missing.extend(never.map(|n| format!("{name} {n}")));
        }
        missing
    }
}
