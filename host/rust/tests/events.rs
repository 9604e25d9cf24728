//! Events and the scripts made of them.
use clock_script::{check, record, run, run_into, Address, AddressError, Event, Refusal, Script};

const CASE: &[u8] = include_bytes!("../../../examples/hour_and_bad_weekday.script");

fn hour_and_bad_weekday() -> [Event; 8] {
    [
        Event::start(1_000_000_000, Address::DS3231, false),
        Event::write(1_000_100_000, 0x02),
        Event::write(1_000_200_000, 0x61),
        Event::write(1_000_300_000, 0x08),
        Event::stop(1_000_400_000),
        Event::start(1_500_000_000, Address::DS3231, true),
        Event::read(1_500_100_000, false),
        Event::stop(1_500_200_000),
    ]
}

#[test]
fn the_case_of_document_01() {
    let script = Script::from_iter(hour_and_bad_weekday());
    assert_eq!(script.as_bytes(), CASE);
    assert_eq!(script.check(), Ok(()));
    assert_eq!(script.run(), Ok(vec![1, 1, 1, 1, 0, 1, 1, 0]));
}

#[test]
fn each_event_has_its_record() {
    let at = 0x0807_0605_0403_0201;
    for byte in 0..=255 {
        assert_eq!(Event::write(at, byte).record(), record(at, 1, byte));
    }
    for number in 0..=0x7F {
        let address = Address::new(number).unwrap();
        assert_eq!(address.number(), number);
        assert_eq!(Event::start(at, address, false).record(), record(at, 0, number << 1));
        assert_eq!(Event::start(at, address, true).record(), record(at, 0, number << 1 | 1));
    }
    assert_eq!(Event::read(at, false).record(), record(at, 2, 0));
    assert_eq!(Event::read(at, true).record(), record(at, 2, 1));
    assert_eq!(Event::stop(at).record(), [1, 2, 3, 4, 5, 6, 7, 8, 3, 0, 0, 0, 0, 0, 0, 0]);
}

#[test]
fn an_address_has_seven_bits() {
    for address in 0x80..=0xFF {
        assert_eq!(Address::new(address), Err(AddressError { address }));
        assert_eq!(Address::try_from(address), Err(AddressError { address }));
    }
    assert_eq!(Address::try_from(0x68), Ok(Address::DS3231));
    assert_eq!(Address::new(0xD0).unwrap_err().to_string(), "address 0xD0: above 0x7F");
}

#[test]
fn collected_extended_or_pushed() {
    let collected: Script = hour_and_bad_weekday().into_iter().collect();
    let mut extended = Script::new();
    extended.extend(hour_and_bad_weekday());
    let mut pushed = Script::default();
    for (i, event) in hour_and_bad_weekday().into_iter().enumerate() {
        assert_eq!(pushed.len(), i);
        assert_eq!(pushed.is_empty(), i == 0);
        pushed.push(event);
    }
    assert_eq!(collected, extended);
    assert_eq!(collected, pushed);
    assert_eq!(collected.len(), 8);
}

#[test]
fn the_calls_on_bytes_take_a_script() {
    let script = Script::from_iter(hour_and_bad_weekday());
    let mut answers = [0; 8];
    assert_eq!(check(script.as_ref()), Ok(()));
    assert_eq!(run_into(script.as_bytes(), &mut answers), Ok(()));
    assert_eq!(run(script.as_bytes()), Ok(answers.to_vec()));
}

#[test]
fn no_event_is_legal() {
    assert_eq!(Script::new().check(), Ok(()));
    assert_eq!(Script::new().run(), Ok(vec![]));
}

#[test]
fn too_many_events_are_14() {
    let most: Script = (0..2048).map(Event::stop).collect();
    assert_eq!(most.run(), Ok(vec![0; 2048]));
    let one_more: Script = (0..2049).map(Event::stop).collect();
    let refusal = Refusal { number: 14, record: 0 };
    assert_eq!(one_more.check(), Err(refusal));
    assert_eq!(one_more.run(), Err(refusal));
}

#[test]
fn a_falling_instant_is_19_and_nothing_else_is_refused() {
    let address = Address::new(0x7F).unwrap();
    let at_5 = [
        Event::start(5, address, false),
        Event::start(5, address, true),
        Event::write(5, 0xFF),
        Event::read(5, false),
        Event::read(5, true),
        Event::stop(5),
    ];
    for event in at_5 {
        assert_eq!(Script::from_iter([Event::stop(5), event]).check(), Ok(()));
        let falling = Script::from_iter([Event::stop(6), event]);
        assert_eq!(falling.run(), Err(Refusal { number: 19, record: 1 }));
    }
}
