//! What is answered to the cases. The refusals are document 01's, since the
//! Rust has none; everything else is asked of the Rust, but for the departures
//! of document 02.

use super::{Kind, Leaf, Penalty, SIZES};
use crate::calls::Leaves;
use crate::departures;
use crate::record::{status, Answers, Case, Variant};
use crate::words::Word;
use crate::{loops, published};

/// Weights that a public value may be taken over.
const FEATURES: std::ops::RangeInclusive<usize> = 1..=8192;

const SIZE_REFUSED: u32 = 1;
const SETTING_REFUSED: u32 = 2;

impl Penalty {
    /// What the prox hands to the soft threshold; MCP's has none.
    fn threshold(&self, step: f64) -> Option<f64> {
        match self.kind {
            Kind::L1 => Some(self.alpha * step),
            Kind::L1PlusL2 => Some(self.second * self.alpha * step),
            Kind::Mcp => None,
        }
    }

    /// Which number is outside its range, by its index among the settings
    /// (request 1). Comparisons of doubles: a NaN is outside, -0.0 counts as 0.
    pub fn wrong(&self) -> Option<u32> {
        if !(self.alpha.is_finite() && self.alpha >= 0.0) {
            return Some(5);
        }
        let second = match self.kind {
            Kind::L1 => true,
            Kind::L1PlusL2 => self.second >= 0.0 && self.second <= 1.0,
            Kind::Mcp => self.second.is_finite() && self.second > 0.0,
        };
        (!second).then_some(6)
    }
}

fn plain(r: f64) -> Answers {
    vec![("r", Word::Double(r))]
}

fn accepted(r: f64) -> Answers {
    [status(0, 0), plain(r)].concat()
}

fn refused(number: u32, place: u32) -> Answers {
    [status(number, place), plain(0.0)].concat()
}

fn violation<V: Leaves>(public: bool, penalty: &Penalty, weight: f64, gradient: f64) -> Answers {
    let r = V::violation(penalty, weight, gradient);
    match penalty.wrong() {
        _ if !public => plain(r),
        Some(setting) => refused(SETTING_REFUSED, setting),
        None => accepted(r),
    }
}

fn value<V: Leaves>(public: bool, penalty: &Penalty, weights: &[f64]) -> Answers {
    if public && !FEATURES.contains(&weights.len()) {
        return refused(SIZE_REFUSED, 0);
    }
    let r = V::value(penalty, weights);
    match penalty.wrong() {
        _ if !public => plain(r),
        Some(setting) => refused(SETTING_REFUSED, setting),
        None => accepted(r),
    }
}

/// All ten places are written; those without a solution are +0.0.
fn solve<V: Leaves>(size: u32, rows: &[f64]) -> Answers {
    let taken = SIZES.contains(&size);
    let solution = taken.then(|| V::solve(size as usize, rows));
    let singular = matches!(solution, Some(None));
    let mut z = solution.flatten().unwrap_or_default();
    z.resize(*SIZES.end() as usize, 0.0);

    let mut answers = status(if taken { 0 } else { SIZE_REFUSED }, 0);
    answers.push(("singular", Word::Count(singular.into())));
    answers.extend(z.into_iter().map(|entry| ("z", Word::Double(entry))));
    answers
}

impl Leaf {
    /// Whether a NaN reaches the soft threshold, which is where request 8 departs.
    fn hands_nan(&self) -> bool {
        match self {
            Leaf::Soft { x, threshold } => x.is_nan() || threshold.is_nan(),
            Leaf::Prox {
                penalty,
                value,
                step,
            } => {
                let threshold = penalty.threshold(*step);
                threshold.is_some_and(|threshold| value.is_nan() || threshold.is_nan())
            }
            _ => false,
        }
    }

    /// With the departures that hold. A NaN divided by anything is a NaN.
    fn departed(&self) -> Answers {
        if departures::holds(departures::NAN_STAYS) && self.hands_nan() {
            return plain(f64::NAN);
        }
        self.answers_of::<loops::Rust>()
    }

    fn answers_of<V: Leaves>(&self) -> Answers {
        match self {
            Leaf::Soft { x, threshold } => plain(V::soft(*x, *threshold)),
            Leaf::Prox {
                penalty,
                value,
                step,
            } => plain(V::prox(penalty, *value, *step)),
            Leaf::Violation {
                public,
                penalty,
                weight,
                gradient,
            } => violation::<V>(*public, penalty, *weight, *gradient),
            Leaf::Value {
                public,
                penalty,
                weights,
            } => value::<V>(*public, penalty, weights),
            Leaf::Solve { size, rows } => solve::<V>(*size, rows),
        }
    }
}

impl Case for Leaf {
    fn code(&self) -> u32 {
        self.record_code()
    }

    fn inputs(&self) -> Vec<Word> {
        self.input_words()
    }

    fn answers(&self, variant: Variant) -> Answers {
        match variant {
            Variant::Loops => self.departed(),
            Variant::Published => self.answers_of::<published::Rust>(),
        }
    }
}
