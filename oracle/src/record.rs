//! Records: a case with its answers, and the comparison of the two variants.

use crate::designs::DesignCase;
use crate::leaves::Leaf;
use crate::runs::{PairCase, SetCase, SolveCase, WalkCase};
use crate::words::{line, Reader, Word};
use std::io::{self, Write};

#[derive(Clone, Copy)]
pub enum Variant {
    Loops,
    Published,
}

/// Names and words of the answers, in the order of the record.
pub type Answers = Vec<(&'static str, Word)>;

/// Refusal number and place; both are 0 where there is an answer.
pub fn status(number: u32, place: u32) -> Answers {
    vec![
        ("number", Word::Count(number)),
        ("place", Word::Count(place)),
    ]
}

/// What the cases of every layer can do.
pub trait Case {
    fn code(&self) -> u32;
    fn inputs(&self) -> Vec<Word>;
    fn answers(&self, variant: Variant) -> Answers;
}

/// Reads a record without its answers. A further layer gets its codes here.
pub fn read_case(text: &str) -> Result<Box<dyn Case>, String> {
    let mut reader = Reader::new(text);
    let case: Box<dyn Case> = match reader.count()? {
        code @ 1..=7 => Box::new(Leaf::read(code, &mut reader)?),
        code @ 0x10..=0x17 => Box::new(DesignCase::read(code, &mut reader)?),
        PairCase::CODE => Box::new(PairCase::read(&mut reader)?),
        SolveCase::CODE => Box::new(SolveCase::read(&mut reader)?),
        SetCase::CODE => Box::new(SetCase::read(&mut reader)?),
        WalkCase::CODE => Box::new(WalkCase::read(&mut reader)?),
        code => return Err(format!("code {code:x} is unknown")),
    };
    reader.end()?;
    Ok(case)
}

/// A case with what both variants answer.
pub struct Record {
    question: Vec<Word>,
    loops: Vec<Word>,
    published: Vec<Word>,
}

impl Record {
    pub fn of(case: &dyn Case) -> Record {
        let words = |variant| case.answers(variant).into_iter().map(|(_, word)| word);
        let mut question = vec![Word::Count(case.code())];
        question.extend(case.inputs());
        Record {
            question,
            loops: words(Variant::Loops).collect(),
            published: words(Variant::Published).collect(),
        }
    }

    /// Whether published has another answer. A panic is none: see below.
    pub fn differs(&self) -> bool {
        self.loops != self.published && !self.panics()
    }

    /// Whether the published text panics.
    pub fn panics(&self) -> bool {
        self.published.contains(&Word::Panicked)
    }

    /// The words of the answers.
    pub fn answers(&self) -> &[Word] {
        &self.loops
    }

    /// How many words the record has.
    pub fn length(&self) -> usize {
        self.question.len() + self.loops.len()
    }

    /// The record as it stands in a list.
    pub fn text(&self) -> String {
        format!("{} {}", line(&self.question), line(&self.loops))
    }
}

/// Differences that are told in full; the rest are only counted.
const TOLD: usize = 20;

/// What is said behind the count of the cases that published answers otherwise; nothing
/// where it always answers.
pub fn panics_told(panicking: usize) -> String {
    match panicking {
        0 => String::new(),
        count => format!(", the published text panics in {count}"),
    }
}

/// Tells on standard error where the two variants answer differently. Where the
/// published text panics is only counted.
#[derive(Default)]
pub struct Differences {
    cases: usize,
    differing: usize,
    panicking: usize,
}

impl Differences {
    pub fn note(&mut self, record: &Record) {
        self.cases += 1;
        self.panicking += usize::from(record.panics());
        if !record.differs() {
            return;
        }
        self.differing += 1;
        if self.differing <= TOLD {
            let published = line(&record.published);
            eprintln!("differs: {} but published {published}", record.text());
        }
    }

    pub fn tell_count(&self) {
        let Differences {
            cases,
            differing,
            panicking,
        } = self;
        let panics = panics_told(*panicking);
        eprintln!("published answers otherwise in {differing} of {cases} cases{panics}");
    }
}

/// Answers the records of standard input, one a line. Comments and empty lines
/// are passed over.
pub fn answer_all() -> Result<(), String> {
    let mut out = io::BufWriter::new(io::stdout().lock());
    let mut differences = Differences::default();
    for (number, text) in io::stdin().lines().enumerate() {
        let at = |problem: String| format!("line {}: {problem}", number + 1);
        let text = text.map_err(|error| at(error.to_string()))?;
        if text.is_empty() || text.starts_with('#') {
            continue;
        }
        let record = Record::of(&*read_case(&text).map_err(at)?);
        differences.note(&record);
        writeln!(out, "{}", record.text()).map_err(unwritable)?;
    }
    out.flush().map_err(unwritable)?;
    differences.tell_count();
    Ok(())
}

pub fn unwritable(error: io::Error) -> String {
    format!("cannot write the answers: {error}")
}
