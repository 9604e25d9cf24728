//! The items whose clock passes the end of 2199. Order 7 of document 02: there the weekday register counts on, and the Rust's jumps.
//! Its answers are held to the reference's, all others to the Rust's.

use std::collections::HashMap;

use crate::family::Item;
use crate::tally::Tally;

/// What the reference answers to these items.
#[derive(Default)]
pub struct Weekdays {
    answers: HashMap<(String, usize), Vec<u8>>,
    /// How many answers are the weekday and other than the Rust's.
    other: u64,
}

impl Weekdays {
    /// Keeps the answers to an item. `expected` gives what must be answered to it, with the weekday of some answers or
    /// without; the reference's answers are other than the Rust's in the weekday alone.
    pub fn keep<I>(
        &mut self,
        item: &Item<I>,
        answers: &[u8],
        expected: fn(&I, Option<&[u8]>) -> Vec<u8>,
        tally: &mut Tally,
    ) {
        if expected(&item.input, Some(answers)) != answers {
            let Item { family, number, .. } = item;
            tally
                .fault(&format!("{family}, item {number}: the reference has more than weekdays other than the Rust's"));
        }
        let rust = expected(&item.input, None);
        let pairs = lines(&rust).zip(lines(answers));
        self.other += pairs.filter(|(rust, answer)| rust != answer).count() as u64;
        self.answers.insert((item.family.clone(), item.number), answers.to_vec());
    }

    /// The answers to an item, where the reference was asked.
    #[must_use]
    pub fn of<I>(&self, item: &Item<I>) -> Option<&[u8]> {
        self.answers.get(&(item.family.clone(), item.number)).map(Vec::as_slice)
    }

    /// Prints how many items and answers these are; a fault where there are none.
    pub fn print(&self, what: &str, tally: &mut Tally) {
        let Weekdays { answers, other } = self;
        println!(
            "{what}s: in {} the clock passes the end of 2199; {other} weekdays other than the Rust's",
            answers.len()
        );
        if *other == 0 {
            tally.fault(&format!("{what}s: no weekday is other than the Rust's"));
        }
    }
}

/// The lines of a text, each with its line feed.
pub fn lines(text: &[u8]) -> impl Iterator<Item = &[u8]> {
    text.split_inclusive(|byte| *byte == b'\n')
}
