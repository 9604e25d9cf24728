//! Refusals of scripts in the words of the table, and as errors.
use clock_script::{check, record, run, run_into, seconds_from_date, Address, Date, Refusal};
use std::error::Error;

#[test]
fn each_refusal_has_its_words() {
    let stop = record(5, 3, 0);
    let mut padded = stop;
    padded[10] = 1;
    for (refused, words) in [
        (check(&[0; 15]), "refusal 13: script length not a multiple of 16"),
        (check(&[0; 32_784]), "refusal 14: over 32,768 bytes"),
        (run_into(&stop, &mut []), "refusal 15: answers not one byte a record"),
        (check(&[stop, record(5, 4, 0)].concat()), "refusal 16 at record 1: kind above 3"),
        (check(&[stop, record(5, 2, 2)].concat()), "refusal 17 at record 1: READ above 1, STOP not 0"),
        (check(&[stop, padded].concat()), "refusal 18 at record 1: bytes 10 to 15 not zero"),
        (check(&[stop, record(4, 3, 0)].concat()), "refusal 19 at record 1: instant below the previous record's"),
    ] {
        assert_eq!(refused.unwrap_err().to_string(), words);
    }
}

#[test]
fn the_record_where_there_is_one() {
    for number in 13..=15 {
        assert_eq!(Refusal { number, record: 0 }.at_record(), None);
    }
    for number in 16..=19 {
        assert_eq!(Refusal { number, record: 7 }.at_record(), Some(7));
    }
    assert_eq!(check(&record(0, 4, 0)).unwrap_err().at_record(), Some(0));
}

#[test]
fn all_are_errors() {
    fn of_a_script() -> Result<(), Box<dyn Error + Send + Sync>> {
        run(&[0; 15])?;
        Ok(())
    }
    fn of_an_address() -> Result<(), Box<dyn Error + Send + Sync>> {
        Address::new(0x80)?;
        Ok(())
    }
    fn of_a_date() -> Result<(), Box<dyn Error + Send + Sync>> {
        seconds_from_date(Date { year: 1999, month: 1, day: 1, hour: 0, minute: 0, second: 0 })?;
        Ok(())
    }
    assert_eq!(of_a_script().unwrap_err().to_string(), "refusal 13: script length not a multiple of 16");
    assert_eq!(of_an_address().unwrap_err().to_string(), "address 0x80: above 0x7F");
    assert_eq!(of_a_date().unwrap_err().to_string(), "refusal 1: year out of range");
}
