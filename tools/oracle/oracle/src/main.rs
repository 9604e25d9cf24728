//! The commands of the oracle.

use std::io::{self, Read, Write};
use std::path::Path;
use std::process::ExitCode;

use oracle::{families, file, script, text, vectors};

const USAGE: &str = "\
usage: oracle COMMAND

  run < SCRIPT              what clockrun prints for a script
  scripts < FILE            the same for each script of a file of scripts, after a line script,K
  calls < TEXT              answers to calls, one a line
  lists < FILE              answers to the calls of a file of lists, those of each list after a line list,K
  lines < FILE              the calls of a file of lists as text
  pack < TEXT               the file of lists that the text holds
  generate WHAT-FAMILY SEED COUNT
                            COUNT items of a family, as a file; WHAT is calls or scripts
  record DIR                the vectors

families:
";

fn main() -> ExitCode {
    let arguments: Vec<String> = std::env::args().skip(1).collect();
    let words: Vec<&str> = arguments.iter().map(String::as_str).collect();
    match command(&words) {
        Ok(bytes) => match io::stdout().write_all(&bytes) {
            Ok(()) => ExitCode::SUCCESS,
            Err(error) => failed(&error.to_string()),
        },
        Err(error) => failed(&error),
    }
}

fn failed(error: &str) -> ExitCode {
    eprintln!("oracle: {error}");
    ExitCode::FAILURE
}

fn command(words: &[&str]) -> Result<Vec<u8>, String> {
    match words {
        ["run"] => Ok(script::lines(&input()?).into()),
        ["scripts"] => Ok(file::scripts_answers(&input()?)?.into()),
        ["calls"] => Ok(text::answers(&input_text()?)?.into()),
        ["lists"] => Ok(file::lists_answers(&input()?)?.into()),
        ["lines"] => Ok(text::of_lists(&file::lists(&input()?)?).into()),
        ["pack"] => text::pack(&input_text()?),
        ["generate", family, seed, count] => {
            let seed = seed.parse().map_err(|_| "SEED is a number below 2^64")?;
            let count = count.parse().map_err(|_| "COUNT is a number")?;
            eprintln!("seed {seed}");
            generate(family, seed, count)
        }
        ["record", folder] => Ok(vectors::record(Path::new(folder))?.into()),
        _ => Err(usage()),
    }
}

fn usage() -> String {
    let mut text = String::from(USAGE);
    for (name, lists, scripts) in families::names() {
        if lists {
            text.push_str(&format!("  calls-{name}\n"));
        }
        if scripts {
            text.push_str(&format!("  scripts-{name}\n"));
        }
    }
    text
}

/// A file of `count` items of a family.
fn generate(family: &str, seed: u64, count: usize) -> Result<Vec<u8>, String> {
    let unknown = || format!("no family {family}\n{}", usage());
    let mut out = Vec::new();
    for index in 0..count {
        if let Some(name) = family.strip_prefix("calls-") {
            file::add_list(&families::list(name, seed, index).ok_or_else(unknown)?, &mut out);
        } else if let Some(name) = family.strip_prefix("scripts-") {
            file::add_script(&families::script(name, seed, index).ok_or_else(unknown)?, &mut out);
        } else {
            return Err(unknown());
        }
    }
    Ok(out)
}

fn input() -> Result<Vec<u8>, String> {
    let mut bytes = Vec::new();
    match io::stdin().read_to_end(&mut bytes) {
        Ok(_) => Ok(bytes),
        Err(error) => Err(error.to_string()),
    }
}

fn input_text() -> Result<String, String> {
    String::from_utf8(input()?).map_err(|error| error.to_string())
}
