//! Scripts: the listing of the program `test_compare` and the archive's C calls against the Rust.

use oracle::call::Call;
use oracle::file::add_script;
use oracle::script;
use oracle::watch::{self, weekday_answers};

use crate::archive;
use crate::child::Kind;
use crate::family::Item;
use crate::tally::{Difference, Tally};
use crate::weekdays::lines;

/// Scripts.
pub const SCRIPTS: Kind<Vec<u8>> = Kind {
    number: 1,
    word: "script",
    add: |script, file| add_script(script, file),
    passes_the_end: |script| calls_of(script).is_some_and(|calls| watch::passes_the_end(&calls) == Ok(true)),
    expected: |script, reference| listing_of(script, reference),
    judge,
};

/// The listing that must be printed: the Rust's, and of the weekday the reference's answers where it was asked.
fn listing_of(script: &[u8], reference: Option<&[u8]>) -> Vec<u8> {
    let rust = script::lines(script).into_bytes();
    let (Some(reference), Some(calls)) = (reference, calls_of(script)) else {
        return rust;
    };
    // The header stands for the power-on; after it each event has a line, then come diagnostics.
    let weekdays = weekday_answers(&calls).expect("the Rust answers every event").into_iter();
    let lines = lines(&rust).zip(lines(reference)).zip(weekdays.chain(std::iter::repeat(false)));
    lines.flat_map(|((rust, by_reference), weekday)| if weekday { by_reference } else { rust }).copied().collect()
}

/// Compares the listing of a script, and what the archive's calls answer to it, with what must be answered.
fn judge(item: &Item<Vec<u8>>, reference: Option<&[u8]>, listing: &[u8], tally: &mut Tally) {
    let expected = listing_of(&item.input, reference);
    let first = Difference::of_texts("the listing", &expected, listing);
    let first = first.or_else(|| archive::difference(&item.input, &answers_in(&expected)));
    tally.item((&item.family, item.number), 1, u64::from(first.is_some()), first);
}

/// The power-on and the events of a script that is not refused.
fn calls_of(script: &[u8]) -> Option<Vec<Call>> {
    let events = script::check(script).ok()?;
    Some(std::iter::once(script::power_on()).chain(events).collect())
}

/// The answers of a listing: the last field of each line with four of them. A diagnostic has five.
fn answers_in(listing: &[u8]) -> Vec<u8> {
    let listing = String::from_utf8_lossy(listing);
    let fields = listing.lines().skip(1).map(|line| line.split(',').collect::<Vec<_>>());
    fields
        .filter_map(
            |fields| if let [_, _, _, answer] = fields[..] { u8::from_str_radix(answer, 16).ok() } else { None },
        )
        .collect()
}
