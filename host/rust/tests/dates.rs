//! Dates and seconds, both ways.
use clock_script::{date_from_seconds, seconds_from_date, Date, DateRefusal};

const END: u64 = 6_311_433_600;

fn date(year: u16, month: u8, day: u8, hour: u8, minute: u8, second: u8) -> Date {
    Date { year, month, day, hour, minute, second }
}

#[test]
fn the_examples_of_document_01() {
    assert_eq!(date_from_seconds(0), Ok(date(2000, 1, 1, 0, 0, 0)));
    assert_eq!(date_from_seconds(5_097_600), Ok(date(2000, 2, 29, 0, 0, 0)));
    assert_eq!(date_from_seconds(820_540_800), Ok(date(2026, 1, 1, 0, 0, 0)));
    assert_eq!(date_from_seconds(END - 1), Ok(date(2199, 12, 31, 23, 59, 59)));
    assert_eq!(date_from_seconds(END), Err(DateRefusal::Seconds));
    assert_eq!(date_from_seconds(u64::MAX), Err(DateRefusal::Seconds));
    assert_eq!(seconds_from_date(date(2100, 2, 29, 0, 0, 0)), Err(DateRefusal::Day));
}

#[test]
fn every_day_there_and_back_in_its_order() {
    let mut before = None;
    for day in 0..73_049 {
        let seconds = day * 86_400 + day % 86_400;
        let date = date_from_seconds(seconds).unwrap();
        assert_eq!(seconds_from_date(date), Ok(seconds));
        assert!(before < Some(date));
        before = Some(date);
    }
}

#[test]
fn each_refusal_by_its_first_field_with_its_words() {
    for (refused, refusal, number, words) in [
        (date(1999, 13, 32, 24, 60, 60), DateRefusal::Year, 1, "refusal 1: year out of range"),
        (date(2200, 1, 1, 0, 0, 0), DateRefusal::Year, 1, "refusal 1: year out of range"),
        (date(2000, 13, 32, 24, 60, 60), DateRefusal::Month, 2, "refusal 2: month out of range"),
        (date(2000, 12, 32, 24, 60, 60), DateRefusal::Day, 3, "refusal 3: day out of range"),
        (date(2000, 12, 31, 24, 60, 60), DateRefusal::Hour, 4, "refusal 4: hour out of range"),
        (date(2000, 12, 31, 23, 60, 60), DateRefusal::Minute, 5, "refusal 5: minute out of range"),
        (date(2000, 12, 31, 23, 59, 60), DateRefusal::Second, 6, "refusal 6: second out of range"),
    ] {
        assert_eq!(seconds_from_date(refused), Err(refusal));
        assert_eq!(refusal.number(), number);
        assert_eq!(refusal.to_string(), words);
    }
    assert_eq!(DateRefusal::Seconds.number(), 8);
    assert_eq!(DateRefusal::Seconds.to_string(), "refusal 8: seconds 6,311,433,600 or more");
}
