//! The records of a list, and the words of one: hex numbers with spaces between them, a double as its bits. An array stands behind its count.

use crate::NAMED;
use std::str::SplitAsciiWhitespace;

/// What became of a record.
pub enum Verdict {
    Same,
    Differs,
    /// A dense design with starts or rows: the calls for dense designs take none, so that it cannot be asked.
    Unasked,
}

impl Verdict {
    pub fn of(same: bool) -> Verdict {
        if same { Verdict::Same } else { Verdict::Differs }
    }
}

/// How many records a list has, how many could not be asked, and how many are not answered as they say.
#[derive(Default)]
pub struct Counts {
    cases: usize,
    pub unasked: usize,
    wrong: usize,
}

impl Counts {
    fn add_wrong(&mut self, line: usize, how: &str) {
        self.wrong += 1;
        if self.wrong <= NAMED {
            println!("line {line} {how}");
        }
    }

    /// Whether there is a record and every one is answered as it says.
    pub fn hold(&self) -> bool {
        self.wrong == 0 && self.cases > 0
    }
}

/// Names the records of a list that are wrong, and counts all: every line is one but empty ones and comments. One without a verdict is bad: its code or
/// kind is unknown, or it has not the code's number of words.
pub fn judged(list: &[u8], mut verdict: impl FnMut(&mut Words) -> Option<Verdict>) -> Counts {
    let text = String::from_utf8_lossy(list);
    let mut counts = Counts::default();
    for (line, record) in (1..).zip(text.lines()).filter(|(_, record)| !record.is_empty() && !record.starts_with('#')) {
        counts.cases += 1;
        match verdict(&mut Words(record.split_ascii_whitespace())) {
            Some(Verdict::Same) => {}
            Some(Verdict::Unasked) => counts.unasked += 1,
            Some(Verdict::Differs) => counts.add_wrong(line, "differs"),
            None => counts.add_wrong(line, "is bad"),
        }
    }
    println!("{} cases, {} differ", counts.cases, counts.wrong);
    counts
}

pub struct Words<'a>(SplitAsciiWhitespace<'a>);

impl Words<'_> {
    /// The next word; None where there is none, or no such number.
    pub fn number<T: TryFrom<u64>>(&mut self) -> Option<T> {
        T::try_from(u64::from_str_radix(self.0.next()?, 16).ok()?).ok()
    }

    pub fn double(&mut self) -> Option<f64> {
        self.number().map(f64::from_bits)
    }

    pub fn doubles(&mut self, count: usize) -> Option<Vec<f64>> {
        (0..count).map(|_| self.double()).collect()
    }

    pub fn indices(&mut self, count: usize) -> Option<Vec<u32>> {
        (0..count).map(|_| self.number()).collect()
    }

    pub fn double_array(&mut self) -> Option<Vec<f64>> {
        let count = self.number()?;
        self.doubles(count)
    }

    pub fn index_array(&mut self) -> Option<Vec<u32>> {
        let count = self.number()?;
        self.indices(count)
    }

    /// A record is whole where nothing is behind its last part.
    pub fn end(&mut self) -> Option<()> {
        self.0.next().is_none().then_some(())
    }
}
