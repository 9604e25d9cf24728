//! The recorded vectors: a sample of every family with the Rust's answers.

use std::fs;
use std::path::Path;

use crate::call::Call;
use crate::families;
use crate::file::{add_list, add_script, lists, lists_answers, scripts, scripts_answers};
use crate::script;
use crate::watch::{Class, class};

/// The seed of the vectors.
pub const SEED: u64 = 3231;

/// How many scripts of each family.
const SCRIPTS: [(&str, usize); 13] = [
    ("transactions", 9),
    ("setting", 16),
    ("hours", 3),
    ("undefined", 7),
    ("others", 6),
    ("alarms", 5),
    ("conversions", 6),
    ("jumps", 5),
    ("wraps", 4),
    ("stray", 6),
    ("floods", 2),
    ("damaged", 28),
    ("sizes", 4),
];

/// How many lists of each family, those that take diagnostics apart.
const LISTS: [(&str, usize); 15] = [
    ("transactions", 4),
    ("setting", 6),
    ("hours", 1),
    ("undefined", 2),
    ("others", 3),
    ("alarms", 3),
    ("conversions", 6),
    ("jumps", 4),
    ("wraps", 4),
    ("stray", 3),
    ("floods", 1),
    ("falling", 7),
    ("power", 26),
    ("inside", 2),
    ("rounds", 2),
];

const TAKING: [(&str, usize); 1] = [("taking", 8)];
const DATES: [(&str, usize); 1] = [("dates", 9)];

/// A pair of files: the name before `.in` and `.out`, and both contents.
pub struct Pair {
    pub name: &'static str,
    pub input: Vec<u8>,
    pub output: String,
    /// How many lists or scripts.
    pub items: usize,
    /// How many calls or records; the bytes of a script that are no whole record are not counted.
    pub calls: usize,
}

/// All pairs of files.
///
/// # Errors
/// Where a family makes no answerable input, or a taking list is not plain.
pub fn pairs() -> Result<Vec<Pair>, String> {
    let (plain, alarm, wrapped) = sorted_lists(&LISTS)?;
    let (taking, taking_alarm, taking_wrapped) = sorted_lists(&TAKING)?;
    if !(taking_alarm.is_empty() && taking_wrapped.is_empty()) {
        return Err("a list that takes diagnostics reads alarm flags or passes 2199".into());
    }
    let (dates, ..) = sorted_lists(&DATES)?;
    let (scripts, scripts_alarm, scripts_wrapped) = sorted_scripts()?;
    Ok(vec![
        scripts_pair("scripts", scripts)?,
        scripts_pair("scripts_alarm", scripts_alarm)?,
        scripts_pair("scripts_2199", scripts_wrapped)?,
        lists_pair("calls", plain)?,
        lists_pair("calls_alarm", alarm)?,
        lists_pair("calls_2199", wrapped)?,
        lists_pair("taking", taking)?,
        lists_pair("dates", dates)?,
    ])
}

/// Files of lists: plain ones, those with alarm flags, those past 2199.
type Sorted = (Vec<u8>, Vec<u8>, Vec<u8>);

fn file_of(sorted: &mut Sorted, class: Class) -> &mut Vec<u8> {
    match class {
        Class::Plain => &mut sorted.0,
        Class::Alarm => &mut sorted.1,
        Class::Wrapped => &mut sorted.2,
    }
}

fn sorted_lists(counts: &[(&str, usize)]) -> Result<Sorted, String> {
    let mut sorted = Sorted::default();
    for (name, count) in counts {
        for index in 0..*count {
            let list = families::list(name, SEED, index).ok_or("a family without lists")?;
            add_list(&list, file_of(&mut sorted, class(&list)?));
        }
    }
    Ok(sorted)
}

fn sorted_scripts() -> Result<Sorted, String> {
    let mut sorted = Sorted::default();
    for (name, count) in SCRIPTS {
        for index in 0..count {
            let bytes = families::script(name, SEED, index).ok_or("a family without scripts")?;
            add_script(&bytes, file_of(&mut sorted, script_class(&bytes)?));
        }
    }
    Ok(sorted)
}

/// The class of a script; a refused one is plain.
fn script_class(bytes: &[u8]) -> Result<Class, String> {
    let Ok(events) = script::check(bytes) else {
        return Ok(Class::Plain);
    };
    let mut list: Vec<Call> = vec![script::power_on()];
    list.extend(events);
    class(&list)
}

fn lists_pair(name: &'static str, input: Vec<u8>) -> Result<Pair, String> {
    let output = lists_answers(&input)?;
    let lists = lists(&input)?;
    let calls = lists.iter().map(Vec::len).sum();
    let items = lists.len();
    Ok(Pair { name, input, output, items, calls })
}

fn scripts_pair(name: &'static str, input: Vec<u8>) -> Result<Pair, String> {
    let output = scripts_answers(&input)?;
    let scripts = scripts(&input)?;
    let calls = scripts.iter().map(|script| script.len() / 16).sum();
    let items = scripts.len();
    Ok(Pair { name, input, output, items, calls })
}

/// Writes all pairs into the folder `folder` and gives the seed and a table of what each holds.
///
/// # Errors
/// Where a pair cannot be made or written.
pub fn record(folder: &Path) -> Result<String, String> {
    let mut text = format!("seed {SEED}\n| files | lists or scripts | calls or records |\n|---|---|---|\n");
    for pair in pairs()? {
        let Pair { name, input, output, items, calls } = pair;
        text.push_str(&format!("| `{name}` | {items} | {calls} |\n"));
        write(&folder.join(format!("{name}.in")), &input)?;
        write(&folder.join(format!("{name}.out")), output.as_bytes())?;
    }
    Ok(text)
}

fn write(path: &Path, bytes: &[u8]) -> Result<(), String> {
    fs::write(path, bytes).map_err(|error| format!("{}: {error}", path.display()))
}
