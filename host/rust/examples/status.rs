//! Points at the status register and reads it: the script of `examples/status.txt` in the repository.
use clock_script::{Address, Event, Script};

fn main() {
    let script: Script = [
        Event::start(3_000_000_000, Address::DS3231, false),
        Event::write(3_000_001_000, 0x0F),
        Event::start(3_000_002_000, Address::DS3231, true),
        Event::read(3_000_003_000, false),
        Event::stop(3_000_004_000),
    ]
    .into_iter()
    .collect();
    match script.run() {
        Ok(answers) => println!("{answers:02X?}"),
        Err(refusal) => println!("{refusal}"),
    }
}
