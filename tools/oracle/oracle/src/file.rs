//! Files of several lists of calls and files of several scripts: each with its length before it.

use crate::answer::Bench;
use crate::call::{Call, RECORD};
use crate::script;

/// The answers to one list of calls.
///
/// # Errors
/// Where a call has no answer, or a power-on does not stand first.
pub fn list_answers(list: &[Call]) -> Result<String, String> {
    let mut bench = Bench::default();
    let mut text = String::new();
    for (index, call) in list.iter().enumerate() {
        if index > 0 && matches!(call, Call::Power { .. }) {
            return Err("a power-on that is not the first call of its list".into());
        }
        bench.call(*call, &mut text)?;
    }
    Ok(text)
}

/// The answers to a file of lists, those of each list after a line `list,K`.
///
/// # Errors
/// What is wrong with the file.
pub fn lists_answers(file: &[u8]) -> Result<String, String> {
    let mut text = String::new();
    for (index, list) in lists(file)?.iter().enumerate() {
        let answers = list_answers(list).map_err(|error| format!("list {index}: {error}"))?;
        text.push_str(&format!("list,{index}\n{answers}"));
    }
    Ok(text)
}

/// What `clockrun` prints for each script of a file, after a line `script,K`.
///
/// # Errors
/// What is wrong with the file.
pub fn scripts_answers(file: &[u8]) -> Result<String, String> {
    let mut text = String::new();
    for (index, bytes) in scripts(file)?.iter().enumerate() {
        text.push_str(&format!("script,{index}\n{}", script::lines(bytes)));
    }
    Ok(text)
}

/// The lists of a file.
///
/// # Errors
/// What is wrong with the file.
pub fn lists(file: &[u8]) -> Result<Vec<Vec<Call>>, String> {
    let mut lists = Vec::new();
    let mut rest = file;
    while !rest.is_empty() {
        let count = length(&mut rest)?;
        let mut list = Vec::new();
        for index in 0..count {
            let (bytes, after) = rest.split_first_chunk::<RECORD>().ok_or("the file ends inside a list")?;
            rest = after;
            let place = format!("list {}, record {index}", lists.len());
            list.push(Call::from_record(bytes).map_err(|error| format!("{place}: {error}"))?);
        }
        lists.push(list);
    }
    Ok(lists)
}

/// The scripts of a file.
///
/// # Errors
/// What is wrong with the file.
pub fn scripts(file: &[u8]) -> Result<Vec<&[u8]>, String> {
    let mut scripts = Vec::new();
    let mut rest = file;
    while !rest.is_empty() {
        let count = length(&mut rest)?;
        let (bytes, after) = rest.split_at_checked(count).ok_or("the file ends inside a script")?;
        rest = after;
        scripts.push(bytes);
    }
    Ok(scripts)
}

fn length(rest: &mut &[u8]) -> Result<usize, String> {
    let (bytes, after) = rest.split_first_chunk::<4>().ok_or("the file ends inside a length")?;
    *rest = after;
    usize::try_from(u32::from_le_bytes(*bytes)).map_err(|error| error.to_string())
}

/// Adds `list` to a file of lists.
pub fn add_list(list: &[Call], file: &mut Vec<u8>) {
    add_length(list.len(), file);
    for call in list {
        file.extend(call.to_record());
    }
}

/// Adds `script` to a file of scripts.
pub fn add_script(script: &[u8], file: &mut Vec<u8>) {
    add_length(script.len(), file);
    file.extend(script);
}

fn add_length(length: usize, file: &mut Vec<u8>) {
    let length = u32::try_from(length).expect("a list or script has fewer than 2^32 records or bytes");
    file.extend(length.to_le_bytes());
}
