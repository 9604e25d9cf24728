//! Feeds the published Rust and this library the same inputs, exhaustive ones and random ones, and compares every byte
//! of their answers: lists of calls, and scripts by their listings and by the archive's C calls. The weekday of a clock
//! that passes the end of 2199 is compared with the reference's.

mod archive;
mod calls;
mod child;
mod every;
mod family;
mod scripts;
mod tally;
mod weekdays;

use std::process::{Command, ExitCode};

use child::Kind;
use family::{Family, Item};
use tally::Tally;
use weekdays::Weekdays;

/// A run that compares fewer calls or scripts than these counts as different.
const LEAST_CALLS: u64 = 1_000_000;
const LEAST_SCRIPTS: u64 = 100_000;

fn main() -> ExitCode {
    let arguments: Vec<String> = std::env::args().skip(1).collect();
    let [seed, program, reference] = &arguments[..] else {
        return failed("usage: compare SEED PROGRAM REFERENCE");
    };
    let Ok(seed) = seed.parse() else {
        return failed("SEED is a number below 2^64");
    };
    println!("seed {seed}");
    let mut tally = Tally::new(seed);
    let programs = (program.as_str(), reference.as_str());
    let lists = compare(|| family::lists(seed), &calls::LISTS, programs, &mut tally);
    let both = lists.and_then(|()| compare(|| family::scripts(seed), &scripts::SCRIPTS, programs, &mut tally));
    if let Err(error) = both {
        tally.fault(&error);
    }
    verdict(&mut tally)
}

fn failed(error: &str) -> ExitCode {
    eprintln!("compare: {error}");
    ExitCode::FAILURE
}

/// Compares the items of families: first the reference is asked of those whose clock passes the end of 2199.
fn compare<I: Send>(
    families: impl Fn() -> Vec<Family<I>>,
    kind: &Kind<I>,
    (program, reference): (&str, &str),
    tally: &mut Tally,
) -> Result<(), String> {
    let asked = family::items(families()).filter(|item| (kind.passes_the_end)(&item.input));
    let mut weekdays = Weekdays::default();
    let keep = |item: &Item<I>, answers: &[u8], tally: &mut Tally| weekdays.keep(item, answers, kind.expected, tally);
    child::run(asking(reference), kind, asked, keep, tally)?;
    weekdays.print(kind.word, tally);
    let judge =
        |item: &Item<I>, answers: &[u8], tally: &mut Tally| (kind.judge)(item, weekdays.of(item), answers, tally);
    child::run(Command::new(program), kind, family::items(families()), judge, tally)
}

/// The reference, which answers blocks as the program does.
fn asking(reference: &str) -> Command {
    let mut command = Command::new(reference);
    command.arg("answers");
    command
}

/// Prints what was compared and what differs; success where nothing differs.
fn verdict(tally: &mut Tally) -> ExitCode {
    tally.print_rows();
    let (calls, scripts) = (tally.compared("calls-"), tally.compared("scripts-"));
    println!("{calls} calls, {scripts} scripts");
    if calls < LEAST_CALLS || scripts < LEAST_SCRIPTS {
        tally.fault(&format!("fewer than {LEAST_CALLS} calls or {LEAST_SCRIPTS} scripts"));
    }
    let different = tally.different();
    println!("{} compared, {different} different", calls + scripts);
    if different == 0 { ExitCode::SUCCESS } else { ExitCode::FAILURE }
}
