//! The line protocol: a call a line; the line `list` begins a new list.

use crate::answer::Bench;
use crate::call::Call;
use crate::file::add_list;

const LIST: &str = "list";

/// The answers to the calls of `text`. The line `list` is answered by `list,K`, and after it there
/// is no chip until a power-on. A power-on begins with a new chip.
///
/// # Errors
/// What is wrong with which line.
pub fn answers(text: &str) -> Result<String, String> {
    let mut bench = Bench::default();
    let mut out = String::new();
    let mut lists = 0;
    for (index, line) in text.lines().enumerate() {
        if line == LIST {
            bench = Bench::default();
            out.push_str(&format!("list,{lists}\n"));
            lists += 1;
            continue;
        }
        let call: Result<Call, String> = line.parse();
        call.and_then(|call| bench.call(call, &mut out)).map_err(|error| format!("line {}: {error}", index + 1))?;
    }
    Ok(out)
}

/// The lists as text, each after a line `list`.
#[must_use]
pub fn of_lists(lists: &[Vec<Call>]) -> String {
    let mut text = String::new();
    for list in lists {
        text.push_str("list\n");
        for call in list {
            text.push_str(&format!("{call}\n"));
        }
    }
    text
}

/// The file of lists that `text` holds. Calls before the first line `list` are a list too.
///
/// # Errors
/// What is wrong with which line.
pub fn pack(text: &str) -> Result<Vec<u8>, String> {
    let mut file = Vec::new();
    let mut list: Option<Vec<Call>> = None;
    for (index, line) in text.lines().enumerate() {
        if line == LIST {
            if let Some(list) = list.replace(Vec::new()) {
                add_list(&list, &mut file);
            }
            continue;
        }
        let call = line.parse().map_err(|error| format!("line {}: {error}", index + 1))?;
        list.get_or_insert_with(Vec::new).push(call);
    }
    if let Some(list) = list {
        add_list(&list, &mut file);
    }
    Ok(file)
}
