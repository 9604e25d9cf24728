//! The two C calls of the archive, each held to what must be answered to the same script.

use oracle::call::RECORD;
use oracle::script::{self, Refusal};

use crate::tally::Difference;

unsafe extern "C" {
    fn clock_script_check(script: *const u8, length: usize) -> u32;
    fn clock_script_run(script: *const u8, length: usize, answers: *mut u8, answers_length: usize) -> u32;
}

/// The byte that fills the answers and the guards before the run.
const FILL: u8 = 0xA5;
/// The bytes before and after the answers that a run must leave alone.
const GUARD: usize = 64;
/// The refusal of answers that are not one byte a record.
const ANSWERS_LENGTH: u32 = 15;

fn check(script: &[u8]) -> u32 {
    // SAFETY: the call reads `script.len()` bytes at a pointer that is not null, and writes none.
    unsafe { clock_script_check(script.as_ptr(), script.len()) }
}

fn run(script: &[u8], answers: &mut [u8]) -> u32 {
    // SAFETY: both pointers are of slices that do not overlap, each with its slice's length.
    unsafe { clock_script_run(script.as_ptr(), script.len(), answers.as_mut_ptr(), answers.len()) }
}

/// What a call returns for a refusal.
fn returned(refusal: Refusal) -> u32 {
    let record = u32::try_from(refusal.record.unwrap_or(0)).expect("a script has at most 2,048 records");
    refusal.number * 65_536 + record
}

/// The first difference between the archive's calls on `script` and the Rust's check, with these answers.
#[must_use]
pub fn difference(script: &[u8], answers: &[u8]) -> Option<Difference> {
    let status = script::check(script).map_or_else(returned, |_| 0);
    let records = script.len() / RECORD;
    same("clock_script_check", &status, &check(script))
        .or_else(|| run_differs("clock_script_run", script, records, (status, answers)))
        .or_else(|| run_differs("clock_script_run, one answer byte too many", script, records + 1, longer(status)))
}

/// What a run returns and writes where the answers are one byte too long: the length of a script is judged before.
fn longer(status: u32) -> (u32, &'static [u8]) {
    if matches!(status / 65_536, 13 | 14) { (status, &[]) } else { (ANSWERS_LENGTH * 65_536, &[]) }
}

/// The difference of a run with `room` answer bytes from what it must return and write.
fn run_differs(what: &str, script: &[u8], room: usize, (status, answers): (u32, &[u8])) -> Option<Difference> {
    let mut expected = vec![FILL; GUARD + room + GUARD];
    expected[GUARD..GUARD + answers.len()].copy_from_slice(answers);
    let mut space = vec![FILL; GUARD + room + GUARD];
    let got = run(script, &mut space[GUARD..GUARD + room]);
    same(what, &status, &got).or_else(|| {
        let place = expected.iter().zip(&space).position(|(one, other)| one != other)?;
        let what = format!("{what}, byte {} of the answers", place as i64 - GUARD as i64);
        same(&what, &expected[place], &space[place])
    })
}

fn same<T: PartialEq + std::fmt::Display>(what: &str, expected: &T, got: &T) -> Option<Difference> {
    (expected != got).then(|| Difference { place: what.into(), expected: expected.to_string(), here: got.to_string() })
}
