//! Counts cases and differences for each call, and prints them as a table.

use std::fmt;

/// How many differences of one call are shown whole.
const SHOWN: u64 = 3;

/// One line of the table.
pub struct Row {
    call: &'static str,
    kind: &'static str,
    cases: u64,
    words: u64,
    rejected: u64,
    differences: u64,
}

impl Row {
    /// One case: the two sides' answers. `what` describes the case where they differ.
    #[inline]
    pub fn case<T: PartialEq + fmt::Debug>(&mut self, original: T, port: T, what: impl FnOnce() -> String) {
        self.cases += 1;
        if original != port {
            self.different(&original, &port, what);
        }
    }

    #[cold]
    fn different(&mut self, original: &impl fmt::Debug, port: &impl fmt::Debug, what: impl FnOnce() -> String) {
        self.differences += 1;
        if self.differences <= SHOWN {
            let Row { call, kind, .. } = self;
            let (original, port) = (shown(original), shown(port));
            eprintln!("DIFFERENCE in {call}, {kind}, {}: original {original}, port {port}", what());
        }
    }

    /// The original rejected a word in this case.
    pub fn rejected(&mut self) {
        self.rejected += 1;
    }

    /// It counts as a difference if the original rejected no word in any case of this row.
    pub fn must_reject(&mut self) {
        self.case(true, self.rejected > 0, || "a case with a rejected word".into());
    }

    /// So many words were drawn on each side for the cases of this row.
    pub fn drew(&mut self, words: u64) {
        self.words += words;
    }
}

/// An answer as it is shown: a long one (a table) is cut.
fn shown(answer: &impl fmt::Debug) -> String {
    let whole = format!("{answer:?}");
    match whole.char_indices().nth(160) {
        Some((end, _)) => format!("{} ..", &whole[..end]),
        None => whole,
    }
}

/// All lines so far.
#[derive(Default)]
pub struct Tally {
    rows: Vec<Row>,
}

impl Tally {
    /// Runs the cases of one call and keeps their count.
    pub fn row(&mut self, kind: &'static str, call: &'static str, cases: impl FnOnce(&mut Row)) {
        let mut row = Row { call, kind, cases: 0, words: 0, rejected: 0, differences: 0 };
        cases(&mut row);
        eprintln!("{call}, {kind}: {} cases, {} differences", row.cases, row.differences);
        self.rows.push(row);
    }

    /// Differences of all rows.
    pub fn differences(&self) -> u64 {
        self.rows.iter().map(|row| row.differences).sum()
    }
}

impl fmt::Display for Tally {
    fn fmt(&self, f: &mut fmt::Formatter<'_>) -> fmt::Result {
        let (call, kind) = ("call", "kind");
        writeln!(f, "{call:<48} {kind:<20} {:>9} {:>10} {:>20} {:>11}", "cases", "words", "with a rejected word", "differences")?;
        for row in &self.rows {
            let Row { call, kind, cases, words, rejected, differences } = row;
            writeln!(f, "{call:<48} {kind:<20} {cases:>9} {words:>10} {rejected:>20} {differences:>11}")?;
        }
        let sum = |part: fn(&Row) -> u64| self.rows.iter().map(part).sum::<u64>();
        let (cases, words) = (sum(|row| row.cases), sum(|row| row.words));
        writeln!(f, "{cases} cases, {words} words, {} differences", self.differences())
    }
}
