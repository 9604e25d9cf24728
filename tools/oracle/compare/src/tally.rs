//! What was compared, and what differs.

/// How many items with a difference are printed.
const PRINTED: usize = 20;

/// Two answers that differ, and where.
pub struct Difference {
    pub place: String,
    /// The answer of the published Rust, or of the reference.
    pub expected: String,
    /// This library's answer.
    pub here: String,
}

impl Difference {
    /// The first line in which two texts differ.
    #[must_use]
    pub fn of_texts(place: &str, expected: &[u8], here: &[u8]) -> Option<Difference> {
        if expected == here {
            return None;
        }
        let (mut expected, mut here) = (lines(expected), lines(here));
        let mut pairs = (0..).map(|index| (index, expected.next(), here.next()));
        let (index, expected, here) = pairs.find(|(_, expected, here)| expected != here)?;
        Some(Difference { place: format!("{place}, line {index}"), expected: text(expected), here: text(here) })
    }
}

/// The lines of a text, each with its line feed.
fn lines(text: &[u8]) -> impl Iterator<Item = &[u8]> {
    text.split_inclusive(|byte| *byte == b'\n')
}

fn text(line: Option<&[u8]>) -> String {
    line.map_or("no line".into(), |line| format!("{:?}", String::from_utf8_lossy(line)))
}

/// The items of a family that were compared.
struct Row {
    family: String,
    items: u64,
    compared: u64,
    different: u64,
}

/// What was compared: scripts, and the calls of lists.
pub struct Tally {
    seed: u64,
    rows: Vec<Row>,
    printed: usize,
    /// Faults of no item: more answers than items, a program that failed.
    faults: u64,
}

impl Tally {
    #[must_use]
    pub fn new(seed: u64) -> Tally {
        Tally { seed, rows: Vec::new(), printed: 0, faults: 0 }
    }

    /// Adds an item in which `different` of `compared` differ, the first of them at `first`.
    pub fn item(&mut self, (family, number): (&str, usize), compared: u64, different: u64, first: Option<Difference>) {
        if self.rows.last().is_none_or(|row| row.family != family) {
            self.rows.push(Row { family: family.into(), items: 0, compared: 0, different: 0 });
        }
        if let Some(row) = self.rows.last_mut() {
            row.items += 1;
            row.compared += compared;
            row.different += different;
        }
        if let Some(first) = first {
            self.print(family, number, &first);
        }
    }

    fn print(&mut self, family: &str, number: usize, first: &Difference) {
        self.printed += 1;
        if self.printed > PRINTED {
            return;
        }
        println!("different: {family}, item {number}, seed {}: {}", self.seed, first.place);
        println!("  expected: {}", first.expected);
        println!("  here:     {}", first.here);
    }

    /// Adds a fault that is of no item.
    pub fn fault(&mut self, what: &str) {
        self.faults += 1;
        println!("different: {what}");
    }

    /// How many were compared in the families whose names begin with `prefix`.
    #[must_use]
    pub fn compared(&self, prefix: &str) -> u64 {
        self.rows.iter().filter(|row| row.family.starts_with(prefix)).map(|row| row.compared).sum()
    }

    /// How many differ, and the faults.
    #[must_use]
    pub fn different(&self) -> u64 {
        self.rows.iter().map(|row| row.different).sum::<u64>() + self.faults
    }

    /// Prints a line a family.
    pub fn print_rows(&self) {
        for row in &self.rows {
            println!("{}: {} items, {} compared, {} different", row.family, row.items, row.compared, row.different);
        }
    }
}
