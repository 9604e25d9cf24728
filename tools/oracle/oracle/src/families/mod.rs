//! The families of inputs, by name. An item of a family depends on the seed, the family's name and
//! the item's number alone.

pub mod bus;
mod damaged;
mod dates;
mod lists;
mod registers;
mod time;

use bus::Bus;

use crate::call::Call;
use crate::random::Random;
use crate::script;

/// What a family makes.
#[derive(Clone, Copy)]
enum Make {
    /// Bus events: a script, or a list with `register` and `now` between them.
    Events(fn(&mut Bus, usize)),
    /// A list of calls with a power-on.
    List(fn(&mut Bus, usize)),
    /// A list of date calls.
    Dates(fn(&mut Random, usize) -> Vec<Call>),
    /// A script by its bytes.
    Script(fn(&mut Random, usize) -> Vec<u8>),
}

/// A family: its name and what it makes.
struct Family {
    name: &'static str,
    make: Make,
}

const fn family(name: &'static str, make: Make) -> Family {
    Family { name, make }
}

const FAMILIES: [Family; 21] = [
    family("transactions", Make::Events(registers::transactions)),
    family("rounds", Make::Events(registers::rounds)),
    family("setting", Make::Events(time::setting)),
    family("hours", Make::Events(time::hours)),
    family("undefined", Make::Events(time::undefined_bytes)),
    family("others", Make::Events(registers::others)),
    family("alarms", Make::Events(registers::alarms)),
    family("conversions", Make::Events(registers::conversions)),
    family("jumps", Make::Events(time::jumps)),
    family("wraps", Make::Events(time::wraps)),
    family("stray", Make::Events(registers::stray)),
    family("floods", Make::Events(registers::floods)),
    family("falling", Make::List(lists::falling)),
    family("power", Make::List(lists::power)),
    family("inside", Make::List(lists::inside)),
    family("taking", Make::List(lists::taking)),
    family("taken", Make::List(lists::taken_transactions)),
    family("bytes", Make::List(lists::every_byte)),
    family("dates", Make::Dates(dates::dates)),
    family("damaged", Make::Script(damaged::damaged)),
    family("sizes", Make::Script(damaged::sizes)),
];

/// The names of the families, and which of lists and scripts each makes.
#[must_use]
pub fn names() -> Vec<(&'static str, bool, bool)> {
    let both = |family: &Family| match family.make {
        Make::Events(_) => (family.name, true, true),
        Make::List(_) | Make::Dates(_) => (family.name, true, false),
        Make::Script(_) => (family.name, false, true),
    };
    FAMILIES.iter().map(both).collect()
}

fn make_of(name: &str) -> Option<Make> {
    FAMILIES.iter().find(|family| family.name == name).map(|family| family.make)
}

/// Item `index` of the family `name` as a list of calls; `None` where it makes none.
#[must_use]
pub fn list(name: &str, seed: u64, index: usize) -> Option<Vec<Call>> {
    let mut random = Random::of_item(seed, name, index as u64);
    match make_of(name)? {
        Make::Events(make) => {
            let mut bus = Bus::new(random);
            bus.looking = true;
            lists::any_power(&mut bus);
            make(&mut bus, index);
            bus.look();
            bus.calls.push(Call::Dropped);
            Some(bus.list())
        }
        Make::List(make) => {
            let mut bus = Bus::new(random);
            bus.looking = true;
            make(&mut bus, index);
            Some(bus.list())
        }
        Make::Dates(make) => Some(make(&mut random, index)),
        Make::Script(_) => None,
    }
}

/// Item `index` of the family `name` as a script; `None` where it makes none.
#[must_use]
pub fn script(name: &str, seed: u64, index: usize) -> Option<Vec<u8>> {
    let mut random = Random::of_item(seed, name, index as u64);
    match make_of(name)? {
        Make::Events(make) => {
            let mut bus = Bus::new(random);
            make(&mut bus, index);
            Some(script::of_calls(&bus.calls))
        }
        Make::Script(make) => Some(make(&mut random, index)),
        Make::List(_) | Make::Dates(_) => None,
    }
}
