//! What a walk comes to. The Rust has none: for each alpha the preparation and the
//! solve are asked, as in a pair, and the first usable fit is the answer.

use super::rules::NONE_USABLE;
use super::WalkCase;
use crate::calls::{Designs, Runs};
use crate::departures::{self, STEPS_PAIRED};
use crate::record::{status, Answers, Case, Variant};
use crate::runs::answers::{named, refused, Left};
use crate::runs::{Numbers, Outcome, PairCase, Report};
use crate::words::{doubles, Word};
use crate::{loops, published};

/// -0.0 is a zero.
pub fn nonzero(report: &Report) -> usize {
    let weights = report.weights.iter();
    weights.filter(|&&weight| weight != 0.0).count()
}

pub fn has_negative_zero(report: &Report) -> bool {
    let mut weights = report.weights.iter();
    weights.any(|weight| *weight == 0.0 && weight.is_sign_negative())
}

/// How a walk ends that isn't refused with 1 to 6.
pub enum End {
    /// At the position behind those that were passed over.
    Usable(Report),
    NoneUsable,
    /// The published text panics in one of the fits.
    Panicked,
}

pub struct Walked {
    /// How the fits ended that are not usable, of one alpha after the other.
    pub passed: Vec<Outcome>,
    pub end: End,
}

impl PairCase {
    /// How the fit ends that a preparation and a solve make up, none of which is
    /// refused with 1 to 6; the preparation's 7 is an end too.
    fn ended<V: Designs + Runs>(&self) -> Outcome {
        let (refusal, left) = self.prepared_by::<V>();
        if let Some(refusal) = refusal {
            assert_eq!(refusal, (7, 0), "{self:?}");
            return V::run(&self.0.fit, Numbers::Own);
        }
        let solve = self.solve(left);
        assert_eq!(solve.refusal(), None, "{solve:?}");
        solve.assert_as_single::<V>();
        V::run(&solve.0.fit, Numbers::Handed(&solve.handed()))
    }
}

impl WalkCase {
    /// The calls with this alpha in the settings' place.
    pub fn pair(&self, alpha: f64) -> PairCase {
        let mut given = self.given.clone();
        given.fit.settings.penalty.alpha = alpha;
        PairCase(given)
    }

    /// "at most m nonzero weights with status 1"; "an alpha whose fit gives 7 lacks
    /// it".
    pub fn is_usable(&self, outcome: &Outcome) -> bool {
        let few = |report| nonzero(report) as u64 <= self.most;
        matches!(outcome, Outcome::Finished(report) if self.given.fit.is_met(report) && few(report))
    }

    /// Of a walk that isn't refused with 1 to 6.
    pub fn walked<V: Designs + Runs>(&self) -> Walked {
        let mut passed = Vec::new();
        for &alpha in &self.alphas {
            match self.pair(alpha).ended::<V>() {
                Outcome::Panicked => {
                    let end = End::Panicked;
                    return Walked { passed, end };
                }
                outcome if !self.is_usable(&outcome) => passed.push(outcome),
                Outcome::Finished(report) => {
                    let end = End::Usable(report);
                    return Walked { passed, end };
                }
                other => unreachable!("{other:?} is not usable"),
            }
        }
        let end = End::NoneUsable;
        Walked { passed, end }
    }

    /// Whether there is an answer: always, but for a panic without request 3.
    pub fn comparable(&self) -> bool {
        let panics = |walked: Walked| matches!(walked.end, End::Panicked);
        departures::holds(STEPS_PAIRED)
            || self.refusal().is_some()
            || !panics(self.walked::<loops::Rust>()) && !panics(self.walked::<published::Rust>())
    }

    fn found(&self, position: usize, report: Report) -> Answers {
        let mut answers = status(0, 0);
        answers.push(("position", Word::Count(position as u32)));
        answers.extend(self.given.fit.reported(report));
        answers
    }

    /// "Unless it is refused with 1 to 6, the walk's 2p prepared numbers end at zero."
    fn with_zeros(&self) -> Vec<f64> {
        let mut prepared = self.given.prepared.clone();
        prepared[..self.given.twice_features()].fill(0.0);
        prepared
    }

    fn answers_of<V: Designs + Runs>(&self) -> Answers {
        let (mut answers, prepared) = match self.refusal() {
            Some(refusal) => (
                refused(refusal, Left::default()),
                self.given.prepared.clone(),
            ),
            None => {
                let Walked { passed, end } = self.walked::<V>();
                let answers = match end {
                    End::Usable(report) => self.found(passed.len(), report),
                    End::NoneUsable => refused(NONE_USABLE, Left::zero(&self.given.fit)),
                    End::Panicked => return vec![("published", Word::Panicked)],
                };
                (answers, self.with_zeros())
            }
        };
        answers.extend(named("prepared", doubles(&prepared)));
        answers
    }
}

impl Case for WalkCase {
    fn code(&self) -> u32 {
        WalkCase::CODE
    }

    fn inputs(&self) -> Vec<Word> {
        self.words()
    }

    fn answers(&self, variant: Variant) -> Answers {
        match variant {
            Variant::Loops => self.answers_of::<loops::Rust>(),
            Variant::Published => self.answers_of::<published::Rust>(),
        }
    }
}
