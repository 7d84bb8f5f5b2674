//! What is answered to the cases: a refusal, or what the Rust says.

use super::{FitCase, Given, Numbers, Outcome, PairCase, Prepared, Report, SetCase, SolveCase};
use crate::calls::{Designs, Runs};
use crate::designs::Refusal;
use crate::record::{status, Answers, Case, Variant};
use crate::words::{counted, doubles, Word};
use crate::{loops, published};

/// Violation within tolerance, or not.
const MET: u32 = 1;
const SPENT: u32 = 2;

pub fn named(name: &'static str, words: Vec<Word>) -> Answers {
    words.into_iter().map(|word| (name, word)).collect()
}

/// What a solve leaves in its lent buffers: the front of each, behind which it is
/// as it was. Indices and scratch are zero wherever a solve writes to them.
#[derive(Default)]
pub struct Left {
    weights: Vec<f64>,
    fit: Vec<f64>,
    indices: u32,
    scratch: u32,
}

impl Left {
    /// "A completed run leaves used scratch and indices at zero too."
    pub fn with(weights: Vec<f64>, fit: Vec<f64>, case: &FitCase) -> Left {
        let room = case.room();
        Left {
            weights,
            fit,
            indices: room.indices,
            scratch: room.scratch,
        }
    }

    /// "Refusal 7 leaves the p weights, n fit entries and used scratch (all its
    /// room) at +0 and the p indices at 0."
    pub fn zero(case: &FitCase) -> Left {
        let room = case.room();
        let zeros = |count| vec![0.0; count as usize];
        Left::with(zeros(room.weights), zeros(room.fit), case)
    }

    pub fn answers(&self) -> Answers {
        let mut answers = named("w", counted(&self.weights));
        answers.extend(named("fit", counted(&self.fit)));
        answers.push(("indices", Word::Count(self.indices)));
        answers.push(("scratch", Word::Count(self.scratch)));
        answers
    }
}

impl FitCase {
    /// Status 1.
    pub fn is_met(&self, report: &Report) -> bool {
        report.violation <= self.settings.tolerance
    }

    /// The report, and what is left in the lent buffers.
    pub fn reported(&self, report: Report) -> Answers {
        let met = self.is_met(&report);
        let mut answers = Answers::from([
            ("status", Word::Count(if met { MET } else { SPENT })),
            ("violation", Word::Double(report.violation)),
            ("iterations", Word::Count(report.iterations)),
            ("epochs", Word::Count(report.epochs)),
            ("extrapolations", Word::Count(report.extrapolations)),
        ]);
        answers.extend(Left::with(report.weights, report.fit, self).answers());
        answers
    }
}

pub fn refused((number, place): Refusal, left: Left) -> Answers {
    [status(number, place), left.answers()].concat()
}

impl SolveCase {
    fn answers_of<V: Runs>(&self) -> Answers {
        if let Some(refusal) = self.refusal() {
            return refused(refusal, Left::default());
        }
        let fit = &self.0.fit;
        match V::run(fit, Numbers::Handed(&self.handed())) {
            Outcome::Finished(report) => [status(0, 0), fit.reported(report)].concat(),
            Outcome::NotFinite(_) => refused((7, 0), Left::zero(fit)),
            Outcome::Panicked => vec![("published", Word::Panicked)],
            Outcome::TooLong => unreachable!("the work is not limited"),
        }
    }
}

impl PairCase {
    /// The preparation's refusal, if any, and the lent buffer as it is afterwards.
    pub fn prepared_by<V: Designs>(&self) -> (Option<Refusal>, Vec<f64>) {
        let Given { fit, prepared } = &self.0;
        if let Some(refusal) = self.refusal() {
            return (Some(refusal), prepared.clone());
        }
        let own = Prepared::from(V::initialize(&fit.design, &fit.targets));
        let room = self.0.twice_features();
        let refusal = own.not_finite().map(|_| (7, 0));
        let numbers = match refusal {
            None => own.numbers(),
            Some(_) => vec![0.0; room],
        };
        (refusal, [&numbers[..], &prepared[room..]].concat())
    }

    /// The solve that follows, with the numbers that were left.
    pub fn solve(&self, left: Vec<f64>) -> SolveCase {
        SolveCase(Given {
            fit: self.0.fit.clone(),
            prepared: left,
        })
    }

    fn answers_of<V: Designs + Runs>(&self) -> Answers {
        let (refusal, left) = self.prepared_by::<V>();
        let (number, place) = refusal.unwrap_or((0, 0));
        let mut answers = status(number, place);
        answers.extend(named("prepared", doubles(&left)));
        if refusal.is_none() {
            let solve = self.solve(left);
            solve.assert_as_single::<V>();
            answers.extend(solve.answers_of::<V>());
        }
        answers
    }
}

impl SolveCase {
    /// "preparing and then solving answers as the single call did": the Rust, which
    /// prepares by itself, must end alike.
    pub fn assert_as_single<V: Runs>(&self) {
        if self.refusal().is_none() {
            let pair = V::run(&self.0.fit, Numbers::Handed(&self.handed()));
            let single = V::run(&self.0.fit, Numbers::Own);
            assert_eq!(format!("{pair:?}"), format!("{single:?}"), "{self:?}");
        }
    }
}

impl Case for PairCase {
    fn code(&self) -> u32 {
        PairCase::CODE
    }

    fn inputs(&self) -> Vec<Word> {
        self.0.words()
    }

    fn answers(&self, variant: Variant) -> Answers {
        match variant {
            Variant::Loops => self.answers_of::<loops::Rust>(),
            Variant::Published => self.answers_of::<published::Rust>(),
        }
    }
}

impl Case for SolveCase {
    fn code(&self) -> u32 {
        SolveCase::CODE
    }

    fn inputs(&self) -> Vec<Word> {
        self.0.words()
    }

    fn answers(&self, variant: Variant) -> Answers {
        match variant {
            Variant::Loops => self.answers_of::<loops::Rust>(),
            Variant::Published => self.answers_of::<published::Rust>(),
        }
    }
}

impl SetCase {
    /// The size, and the lent buffer as it is afterwards. Of a refusal 0, and the
    /// buffer as it was.
    pub fn left_by<V: Runs>(&self) -> (usize, Vec<u32>) {
        let mut indices = self.indices.clone();
        if self.refusal().is_some() {
            return (0, indices);
        }
        let set = V::working_set(&self.weights, &self.violations, self.start as usize);
        indices[..self.weights.len()].fill(0);
        indices[..set.len()].copy_from_slice(&set);
        (set.len(), indices)
    }

    fn answers_of<V: Runs>(&self) -> Answers {
        let (number, place) = self.refusal().unwrap_or((0, 0));
        let (size, indices) = self.left_by::<V>();
        let mut answers = status(number, place);
        answers.push(("size", Word::Count(size as u32)));
        let indices = indices.into_iter().map(Word::Count);
        answers.extend(indices.map(|word| ("index", word)));
        answers
    }
}

impl Case for SetCase {
    fn code(&self) -> u32 {
        SetCase::CODE
    }

    fn inputs(&self) -> Vec<Word> {
        self.input_words()
    }

    fn answers(&self, variant: Variant) -> Answers {
        match variant {
            Variant::Loops => self.answers_of::<loops::Rust>(),
            Variant::Published => self.answers_of::<published::Rust>(),
        }
    }
}
