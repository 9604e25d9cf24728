//! One run of a program: it is fed blocks of items, and its answers are taken item by item.

use std::io::{BufRead, BufReader, Read, Write};
use std::process::{ChildStdin, Command, Stdio};
use std::sync::mpsc::{Receiver, Sender, channel};
use std::thread;

use crate::family::Item;
use crate::tally::Tally;

/// The bytes of the longest file of items that the program takes in a block, beside the block's kind.
const LONGEST: usize = 65_535;

/// A kind of items: what a program is fed, how it titles its answers, and what these must be.
pub struct Kind<I> {
    /// The first byte of a block.
    pub number: u8,
    /// The word of an item's title: `list` or `script`.
    pub word: &'static str,
    /// Adds an item to a file.
    pub add: fn(&I, &mut Vec<u8>),
    /// Whether the clock passes the end of 2199 in an item.
    pub passes_the_end: fn(&I) -> bool,
    /// What must be answered to an item: what the Rust answers, and of the weekday what the reference answers, where it was asked.
    pub expected: fn(&I, Option<&[u8]>) -> Vec<u8>,
    /// Asked with the reference's answers to the item, where there are some, and then the answers to compare.
    pub judge: Judge<I>,
}

/// Compares the answers to an item with what must be answered.
pub type Judge<I> = fn(&Item<I>, Option<&[u8]>, &[u8], &mut Tally);

/// Feeds `items` to one run of `program` and gives each, with its answer, to `judge`.
///
/// # Errors
/// Where the program cannot be run.
pub fn run<I: Send>(
    mut program: Command,
    kind: &Kind<I>,
    items: impl Iterator<Item = Item<I>> + Send,
    judge: impl FnMut(&Item<I>, &[u8], &mut Tally),
    tally: &mut Tally,
) -> Result<(), String> {
    let name = program.get_program().to_string_lossy().into_owned();
    let mut child =
        program.stdin(Stdio::piped()).stdout(Stdio::piped()).spawn().map_err(|error| format!("{name}: {error}"))?;
    let input = child.stdin.take().ok_or("standard input is no pipe")?;
    let output = child.stdout.take().ok_or("standard output is no pipe")?;
    let sections = Sections { output: Some(BufReader::with_capacity(1 << 18, output)), word: kind.word, title: None };
    let (sender, receiver) = channel();
    let more = thread::scope(|scope| {
        scope.spawn(|| feed(items, kind, input, sender));
        judge_all(receiver, sections, judge, tally)
    });
    if more {
        tally.fault(&format!("{name} answers more than it was asked"));
    }
    let status = child.wait().map_err(|error| format!("{name}: {error}"))?;
    if !status.success() {
        tally.fault(&format!("{name} ends with {status}"));
    }
    Ok(())
}

/// Writes the items in blocks. A write that fails is not reported: its items then have no answer.
fn feed<I>(items: impl Iterator<Item = Item<I>>, kind: &Kind<I>, mut input: ChildStdin, sender: Sender<Vec<Item<I>>>) {
    let mut file = Vec::new();
    let mut block = Vec::new();
    for item in items {
        let mut bytes = Vec::new();
        (kind.add)(&item.input, &mut bytes);
        assert!(bytes.len() <= LONGEST, "{}, item {}, fits no block", item.family, item.number);
        if file.len() + bytes.len() > LONGEST {
            send(std::mem::take(&mut block), kind.number, &std::mem::take(&mut file), &mut input, &sender);
        }
        file.extend(bytes);
        block.push(item);
    }
    send(block, kind.number, &file, &mut input, &sender);
}

/// Sends a block's items to be judged, then writes the block. Sending waits for nothing, so that a program which answers
/// late is fed on; one that answers holds the feeder to its own pace.
fn send<I>(block: Vec<Item<I>>, kind: u8, file: &[u8], input: &mut ChildStdin, sender: &Sender<Vec<Item<I>>>) {
    if sender.send(block).is_ok() {
        let length = u32::try_from(1 + file.len()).expect("a block is short").to_le_bytes();
        let _ = input.write_all(&length).and_then(|()| input.write_all(&[kind])).and_then(|()| input.write_all(file));
    }
}

/// Gives each item with its answer to `judge`; true where the program answers more. Both ends are owned here: a panic
/// closes them, so that the program and the feeder end too.
fn judge_all<I>(
    blocks: Receiver<Vec<Item<I>>>,
    mut sections: Sections<impl Read>,
    mut judge: impl FnMut(&Item<I>, &[u8], &mut Tally),
    tally: &mut Tally,
) -> bool {
    for block in blocks {
        for (number, item) in block.iter().enumerate() {
            judge(item, &sections.answer(number), tally);
        }
    }
    !sections.next_title().is_empty()
}

/// What a program prints, section by section: a title, then lines up to the next title.
struct Sections<R> {
    /// Closed after a wrong title: what comes then answers no known item, and nobody reads it.
    output: Option<BufReader<R>>,
    word: &'static str,
    /// A title that was read and whose section was not.
    title: Option<Vec<u8>>,
}

impl<R: Read> Sections<R> {
    /// The lines under the title of item `number`; none where another title comes or the end, and from then on.
    fn answer(&mut self, number: usize) -> Vec<u8> {
        let mut lines = Vec::new();
        if self.next_title() != format!("{},{number}\n", self.word).as_bytes() {
            self.output = None;
            return lines;
        }
        loop {
            let line = self.line();
            if line.is_empty() || self.is_title(&line) {
                self.title = Some(line);
                return lines;
            }
            lines.extend(line);
        }
    }

    fn next_title(&mut self) -> Vec<u8> {
        self.title.take().unwrap_or_else(|| self.line())
    }

    /// The next line with its line feed; empty at the end, and where no more can be read.
    fn line(&mut self) -> Vec<u8> {
        let mut line = Vec::new();
        match self.output.as_mut().map(|output| output.read_until(b'\n', &mut line)) {
            Some(Ok(_)) => line,
            Some(Err(_)) | None => Vec::new(),
        }
    }

    fn is_title(&self, line: &[u8]) -> bool {
        line.strip_prefix(self.word.as_bytes()).is_some_and(|rest| rest.starts_with(b","))
    }
}
