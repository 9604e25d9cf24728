//! Families of inputs: a name, how many items are compared, and how each is made.

use oracle::call::Call;
use oracle::families;

use crate::every;

/// A family, its items lists of calls or scripts.
pub struct Family<I> {
    pub name: String,
    pub count: usize,
    pub make: Box<dyn Fn(usize) -> I + Send>,
}

/// An item of a family.
pub struct Item<I> {
    pub family: String,
    pub number: usize,
    pub input: I,
}

/// The items of `families`, one family after the other.
pub fn items<I>(families: Vec<Family<I>>) -> impl Iterator<Item = Item<I>> {
    families.into_iter().flat_map(|Family { name, count, make }| {
        (0..count).map(move |number| Item { family: name.clone(), number, input: make(number) })
    })
}

fn every<I: 'static>(name: &str, count: usize, make: fn(usize) -> I) -> Family<I> {
    Family { name: name.into(), count, make: Box::new(make) }
}

/// The families of lists: the exhaustive ones, then every one of the oracle's under `seed`.
#[must_use]
pub fn lists(seed: u64) -> Vec<Family<Vec<Call>>> {
    let mut all = vec![
        every("calls-every-register", every::REGISTERS, every::register),
        every("calls-every-day", every::DAYS, every::day),
        every("calls-every-month", every::MONTHS, every::month),
        every("calls-every-month-end", every::YEARS, every::month_ends),
    ];
    for (name, makes_lists, _) in families::names() {
        if makes_lists {
            let make = move |number| families::list(name, seed, number).expect("the family makes lists");
            all.push(Family { name: format!("calls-{name}"), count: lists_of(name), make: Box::new(make) });
        }
    }
    all
}

/// The families of scripts: the exhaustive ones, then every one of the oracle's under `seed`.
#[must_use]
pub fn scripts(seed: u64) -> Vec<Family<Vec<u8>>> {
    let mut all = vec![
        every("scripts-every-byte", every::BYTES, every::byte),
        every("scripts-every-two-bytes", every::TWO_BYTES, every::two_bytes),
    ];
    for (name, _, makes_scripts) in families::names() {
        if makes_scripts {
            let make = move |number| families::script(name, seed, number).expect("the family makes scripts");
            all.push(Family { name: format!("scripts-{name}"), count: scripts_of(name), make: Box::new(make) });
        }
    }
    all
}

/// How many random lists of a family: fewer where they are long.
fn lists_of(name: &str) -> usize {
    match name {
        "bytes" => 190,
        "floods" => 1_000,
        _ => 10_000,
    }
}

/// How many random scripts of a family: fewer where they are long.
fn scripts_of(name: &str) -> usize {
    match name {
        "sizes" => 240,
        "floods" => 2_000,
        _ => 30_000,
    }
}
