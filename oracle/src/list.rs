//! Writes the list of a layer: comments that say how it was made, then the
//! records.

use crate::departures;
use crate::random::Random;
use crate::record::{panics_told, unwritable, Differences, Record};
use crate::words::Word;
use std::io::{self, Write};

/// How the list of a layer is made.
pub struct Recipe {
    pub layer: &'static str,
    /// Codes with their shares of a thousand.
    pub shares: &'static [(u32, u64)],
    /// The code that takes what is left.
    pub last: u32,
    /// How the cases are chosen, in lines.
    pub how: fn() -> Vec<&'static str>,
    /// Makes so many cases of one code.
    pub part: fn(u32, usize, &mut Random) -> Part,
    /// What the header says at its end.
    pub notes: fn(&[Part]) -> Vec<String>,
}

/// The records of one code.
pub struct Part {
    pub code: u32,
    pub records: Vec<Record>,
    /// What the header says of them beside their number.
    pub remark: String,
    /// What it says in lines of their own.
    pub details: Vec<String>,
}

impl Part {
    fn differing(&self) -> usize {
        let differing = self.records.iter().filter(|record| record.differs());
        differing.count()
    }

    fn panicking(&self) -> usize {
        self.records.iter().filter(|record| record.panics()).count()
    }

    fn told(&self) -> Vec<String> {
        let (code, cases, remark) = (self.code, self.records.len(), &self.remark);
        let (differing, panics) = (self.differing(), panics_told(self.panicking()));
        let line = format!(
            "code {code:x}: {cases} cases, {remark}, published answers otherwise in {differing}{panics}"
        );
        let details = self.details.iter().map(|detail| format!("  {detail}"));
        [line].into_iter().chain(details).collect()
    }
}

/// How many cases of a layer with refusals are answered and how many refused.
/// The refusal number is the first word of every answer there.
pub fn refusals(records: &[Record]) -> String {
    let count = |number| {
        let with = |record: &&Record| record.answers()[0] == Word::Count(number);
        records.iter().filter(with).count()
    };
    let mut told = format!("{} answered", count(0));
    for number in 1..=11 {
        match count(number) {
            0 => {}
            refused => told += &format!(", {refused} refused with {number}"),
        }
    }
    told
}

impl Recipe {
    /// How many cases of each code make up the list.
    fn plan(&self, count: u64) -> Vec<(u32, u64)> {
        let mut plan: Vec<_> = self
            .shares
            .iter()
            .map(|&(code, share)| (code, count / 1000 * share + count % 1000 * share / 1000))
            .collect();
        let planned: u64 = plan.iter().map(|(_, cases)| cases).sum();
        plan.push((self.last, count - planned));
        plan
    }

    fn header(&self, seed: u64, count: u64, parts: &[Part]) -> Vec<String> {
        let mut lines = vec![
            format!(
                "made by: oracle {}list {} {seed} {count}",
                departures::words(),
                self.layer
            ),
            format!("seed {seed}, count {count}"),
        ];
        lines.extend((self.how)().into_iter().map(String::from));
        lines.extend(parts.iter().flat_map(Part::told));
        let differing: usize = parts.iter().map(Part::differing).sum();
        let panics = panics_told(parts.iter().map(Part::panicking).sum());
        lines.push(format!(
            "published answers otherwise in {differing} cases in all{panics}"
        ));
        lines.extend((self.notes)(parts));
        lines
    }

    pub fn write(&self, seed: u64, count: u64) -> Result<(), String> {
        let mut random = Random::new(seed);
        let parts: Vec<Part> = self
            .plan(count)
            .into_iter()
            .map(|(code, cases)| (self.part)(code, cases as usize, &mut random))
            .collect();

        let mut out = io::BufWriter::new(io::stdout().lock());
        for line in self.header(seed, count, &parts) {
            writeln!(out, "# {line}").map_err(unwritable)?;
        }
        let mut differences = Differences::default();
        for record in parts.iter().flat_map(|part| &part.records) {
            writeln!(out, "{}", record.text()).map_err(unwritable)?;
            differences.note(record);
        }
        out.flush().map_err(unwritable)?;
        differences.tell_count();
        Ok(())
    }
}
