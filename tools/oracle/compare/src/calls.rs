//! Lists of calls: every answer of the program `test_compare` against the Rust's.

use oracle::answer::Bench;
use oracle::call::Call;
use oracle::file::add_list;
use oracle::watch::{self, weekday_answers};

use crate::child::Kind;
use crate::family::Item;
use crate::tally::{Difference, Tally};
use crate::weekdays::lines;

/// Lists. The Rust answers every call of them.
pub const LISTS: Kind<Vec<Call>> = Kind {
    number: 0,
    word: "list",
    add: |list, file| add_list(list, file),
    passes_the_end: |list| watch::passes_the_end(list) == Ok(true),
    expected: |list, reference| answers_to(list, reference).concat(),
    judge,
};

/// Compares the answers to a list with what must be answered.
fn judge(item: &Item<Vec<Call>>, reference: Option<&[u8]>, answers: &[u8], tally: &mut Tally) {
    let expected = answers_to(&item.input, reference);
    let (different, first) =
        if answers == expected.concat() { (0, None) } else { differences(&item.input, &expected, answers) };
    tally.item((&item.family, item.number), item.input.len() as u64, different, first);
}

/// What must be answered to each call: the Rust's answer, and of the weekday the reference's where it was asked.
fn answers_to(list: &[Call], reference: Option<&[u8]>) -> Vec<Vec<u8>> {
    let mut bench = Bench::default();
    let mut expected: Vec<Vec<u8>> = list.iter().map(|call| rust_answer(&mut bench, call)).collect();
    if let Some(reference) = reference {
        let weekdays = weekday_answers(list).expect("the Rust has answered the whole list");
        let mut lines = lines(reference);
        for (index, call) in list.iter().enumerate() {
            let by_reference = answer(call, &mut lines);
            if weekdays[index] {
                expected[index] = by_reference;
            }
        }
    }
    expected
}

fn rust_answer(bench: &mut Bench, call: &Call) -> Vec<u8> {
    let mut rust = String::new();
    bench.call(*call, &mut rust).unwrap_or_else(|error| panic!("{call}: {error}"));
    rust.into_bytes()
}

/// How many calls of a list have another answer than they must, and the first of them. Lines after the last answer
/// count as one more.
fn differences(list: &[Call], expected: &[Vec<u8>], answers: &[u8]) -> (u64, Option<Difference>) {
    let mut lines = lines(answers);
    let mut found = Vec::new();
    for (index, (call, expected)) in list.iter().zip(expected).enumerate() {
        let place = format!("call {index}, {call}");
        found.extend(Difference::of_texts(&place, expected, &answer(call, &mut lines)));
    }
    found.extend(Difference::of_texts("after the last call", &[], &lines.collect::<Vec<_>>().concat()));
    (found.len() as u64, found.into_iter().next())
}

/// The lines of the answer to `call`: one, and after the count of a taking so many more.
fn answer<'a>(call: &Call, lines: &mut impl Iterator<Item = &'a [u8]>) -> Vec<u8> {
    let mut answer = lines.next().unwrap_or_default().to_vec();
    if *call == Call::Take {
        let count = String::from_utf8_lossy(&answer).trim_end().parse().unwrap_or(0);
        answer.extend(lines.take(count).flatten());
    }
    answer
}
