//! A few cases of each part, so that `cargo test` has them too. The whole is the program of this crate.

use differential::dice::Dice;
use differential::parts::PARTS;
use differential::tally::Tally;

fn alike(place: usize, cases: u64) -> Tally {
    let mut tally = Tally::default();
    for case in 0..cases {
        let mut dice = Dice::new(1, place as u64, case);
        let told = (PARTS[place].case)(&mut dice, &mut tally);
        assert_eq!(told, Ok(()), "case {case} of {}", PARTS[place].name);
    }
    tally
}

#[test]
fn packets() {
    alike(0, 50_000);
}

#[test]
fn images() {
    alike(1, 1_000);
}

#[test]
fn sessions() {
    alike(2, 2);
}

#[test]
fn states() {
    alike(3, 1_000);
}

/// They meet every answer of the builder and every way out of its form.
#[test]
fn builds() {
    let missing = alike(4, 10_000).missing();
    let of_builds = |name: &&String| name.starts_with("build ") || name.starts_with("form ");
    assert_eq!(missing.iter().find(of_builds), None);
}

/// A thousand states that sessions reached come back as they were saved, and harm is told in every way that there is.
#[test]
fn saved() {
    let missing = alike(5, 1_000).missing();
    assert_eq!(missing.iter().find(|name| name.starts_with("saved ")), None);
}

/// Two cases are different, and one is the same each time.
#[test]
fn dice_are_of_their_case() {
    let first = |seed, part, case| Dice::new(seed, part, case).eight();
    assert_eq!(first(1, 2, 3), first(1, 2, 3));
    assert_ne!(first(1, 2, 3), first(1, 2, 4));
    assert_ne!(first(1, 2, 3), first(1, 3, 3));
    assert_ne!(first(1, 2, 3), first(2, 2, 3));
}
