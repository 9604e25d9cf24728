//! Both calls on good, damaged, empty and overlong scripts.
use clock_script::{check, record, run, run_into, Refusal};

const START: u8 = 0;
const WRITE: u8 = 1;
const READ: u8 = 2;
const STOP: u8 = 3;

fn script(records: &[[u8; 16]]) -> Vec<u8> {
    records.concat()
}

fn hour_and_bad_weekday() -> Vec<u8> {
    script(&[
        record(1_000_000_000, START, 0xD0),
        record(1_000_100_000, WRITE, 0x02),
        record(1_000_200_000, WRITE, 0x61),
        record(1_000_300_000, WRITE, 0x08),
        record(1_000_400_000, STOP, 0),
        record(1_500_000_000, START, 0xD1),
        record(1_500_100_000, READ, 0),
        record(1_500_200_000, STOP, 0),
    ])
}

fn refused(number: u16, record: u16) -> Result<(), Refusal> {
    Err(Refusal { number, record })
}

/// The check and the run refuse alike, and the run leaves its answers.
fn both_refuse(script: &[u8], number: u16, record: u16) {
    assert_eq!(check(script), refused(number, record));
    let mut answers = vec![0xA5; script.len() / 16];
    assert_eq!(run_into(script, &mut answers), refused(number, record));
    assert!(answers.iter().all(|&byte| byte == 0xA5));
}

#[test]
fn the_case_of_document_01() {
    assert_eq!(run(&hour_and_bad_weekday()), Ok(vec![1, 1, 1, 1, 0, 1, 1, 0]));
}

#[test]
fn no_record_is_legal() {
    assert_eq!(check(&[]), Ok(()));
    assert_eq!(run(&[]), Ok(vec![]));
}

#[test]
fn every_length_that_is_no_multiple_of_16_is_13() {
    for length in 1..200 {
        let bytes = vec![0; length];
        if length % 16 != 0 {
            both_refuse(&bytes, 13, 0);
        }
    }
}

#[test]
fn records_up_to_2048() {
    let most: Vec<u8> = (0..2048).flat_map(|i| record(i, STOP, 0)).collect();
    assert_eq!(check(&most), Ok(()));
    assert_eq!(run(&most), Ok(vec![0; 2048]));
    let one_more: Vec<u8> = (0..2049).flat_map(|i| record(i, STOP, 0)).collect();
    both_refuse(&one_more, 14, 0);
    let one_byte_more = [most, vec![0]].concat();
    both_refuse(&one_byte_more, 14, 0);
}

#[test]
fn each_fault_at_its_record() {
    let good = record(5, STOP, 0);
    let mut padded = record(5, STOP, 0);
    padded[15] = 1;
    for place in [0, 1, 2047] {
        for (number, bad) in [
            (16, record(5, 4, 0)),
            (16, record(5, 255, 0)),
            (17, record(5, READ, 2)),
            (17, record(5, STOP, 1)),
            (18, padded),
        ] {
            let mut records = vec![good; 2048];
            records[place] = bad;
            both_refuse(&script(&records), number, place as u16);
        }
    }
    for place in [1, 2047] {
        let mut records = vec![good; 2048];
        records[place] = record(4, STOP, 0);
        both_refuse(&script(&records), 19, place as u16);
    }
    assert_eq!(check(&record(0, STOP, 0)), Ok(()));
}

#[test]
fn faults_in_their_order() {
    let mut all = record(4, 4, 255);
    all[10] = 1;
    both_refuse(&script(&[record(5, STOP, 0), all]), 16, 1);
    all[8] = READ;
    both_refuse(&script(&[record(5, STOP, 0), all]), 17, 1);
    all[9] = 1;
    both_refuse(&script(&[record(5, STOP, 0), all]), 18, 1);
    all[10] = 0;
    both_refuse(&script(&[record(5, STOP, 0), all]), 19, 1);
    both_refuse(&script(&[record(5, 4, 0), record(4, 4, 0)]), 16, 0);
}

#[test]
fn answers_of_another_length_are_15_and_stay() {
    let case = hour_and_bad_weekday();
    for length in [0, 7, 9, 2048] {
        let mut bytes = vec![0xA5; length + 2];
        assert_eq!(run_into(&case, &mut bytes[1..=length]), refused(15, 0));
        assert!(bytes.iter().all(|&byte| byte == 0xA5));
    }
    let bad = script(&[record(0, 4, 0)]);
    assert_eq!(run_into(&bad, &mut []), refused(15, 0));
}

#[test]
fn a_run_stays_inside_its_answers() {
    let case = hour_and_bad_weekday();
    let mut bytes = [0xA5; 10];
    assert_eq!(run_into(&case, &mut bytes[1..9]), Ok(()));
    assert_eq!(bytes, [0xA5, 1, 1, 1, 1, 0, 1, 1, 0, 0xA5]);
}
