//! The refusals of documents 01 and 02, which the Rust lacks. 1 and 4 to 6 are those
//! of every call that takes a design; 7 in a run is found by the watch.
//!
//! Request 5: "the preparation tests 1, 3, 4, 5, 6, then 7 for the constants and
//! X'y, which leaves the 2p numbers zero; the solve tests 10 after 6, changing
//! nothing". The program keeps document 01's order: "in the order they are tested".

use super::watch::{all_finite, NotFinite};
use super::{FitCase, Given, Lent, PairCase, Prepared, SetCase, Settings, SolveCase};
use crate::designs::{Refusal, FEATURES};
use std::ops::RangeInclusive;

const MOST_ITERATIONS: u32 = 1_000;
const MOST_EPOCHS: u32 = 100_000;
const STARTS: RangeInclusive<u32> = 1..=8_192;
pub const DEPTHS: RangeInclusive<u32> = 1..=10;

/// The start's index among the settings (request 1).
const START: u32 = 2;

impl Settings {
    /// The first that is outside its range, by its index (request 1); the
    /// penalty's two come last. Comparisons of doubles: a NaN is outside, -0.0
    /// counts as 0.
    fn wrong(&self) -> Option<u32> {
        let in_range = [
            self.iterations <= MOST_ITERATIONS,
            self.epochs <= MOST_EPOCHS,
            STARTS.contains(&self.start),
            !self.extrapolate || DEPTHS.contains(&self.depth),
            self.tolerance.is_finite() && self.tolerance >= 0.0,
        ];
        let first = in_range.iter().position(|in_range| !in_range);
        first.map_or_else(|| self.penalty.wrong(), |index| Some(index as u32))
    }

    /// A walk's: "the settings' alpha is neither used nor tested".
    pub fn wrong_beside_alpha(&self) -> Option<u32> {
        let mut others = self.clone();
        others.penalty.alpha = 0.0;
        others.wrong()
    }
}

impl FitCase {
    /// The lengths that the lent buffers must have; K is in range. "Room for the
    /// prepared numbers (2p) leaves the scratch": 3p or (2K+5)·p + n in document 01.
    pub fn room(&self) -> Lent {
        let (samples, features) = (self.design.samples, self.design.features);
        let scratch = if self.settings.extrapolate {
            (2 * self.settings.depth + 3) * features + samples
        } else {
            features
        };
        Lent {
            weights: features,
            fit: samples,
            indices: features,
            scratch,
        }
    }

    pub fn room_lacks(&self) -> bool {
        let (lent, room) = (self.lent, self.room());
        lent.weights < room.weights
            || lent.fit < room.fit
            || lent.indices < room.indices
            || lent.scratch < room.scratch
    }

    /// 1 to 6, the first that applies in document 01's order, with the place of what
    /// is wrong among the settings; whether room lacks is asked where the sizes and the
    /// settings hold.
    pub fn refused_with(
        &self,
        wrong: Option<u32>,
        room_lacks: impl FnOnce() -> bool,
    ) -> Option<Refusal> {
        if !self.design.sizes_hold_with(&self.targets) {
            return Some((1, 0));
        }
        if let Some(setting) = wrong {
            return Some((2, setting));
        }
        if room_lacks() {
            return Some((3, 0));
        }
        self.design.refused_content(&self.targets)
    }

    /// The program's, which comes to prepare and to solve only then.
    pub fn refusal(&self) -> Option<Refusal> {
        self.refused_with(self.settings.wrong(), || self.room_lacks())
    }
}

impl Given {
    /// The room of the prepared numbers.
    pub fn twice_features(&self) -> usize {
        2 * self.fit.design.features as usize
    }

    pub fn prepared_lacks(&self) -> bool {
        self.prepared.len() < self.twice_features()
    }
}

impl PairCase {
    /// The preparation's, before it computes anything.
    pub fn refusal(&self) -> Option<Refusal> {
        let FitCase {
            design, targets, ..
        } = &self.0.fit;
        if !design.sizes_hold_with(targets) {
            return Some((1, 0));
        }
        if self.0.prepared_lacks() {
            return Some((3, 0));
        }
        design.refused_content(targets)
    }
}

impl SolveCase {
    /// The numbers that are handed over, where they have their room.
    pub fn handed(&self) -> Prepared {
        Prepared::read(&self.0.prepared, self.0.fit.design.features as usize)
    }

    /// All that comes before the run.
    pub fn refusal(&self) -> Option<Refusal> {
        let fit = &self.0.fit;
        let lacks = || fit.room_lacks() || self.0.prepared_lacks();
        let early = fit.refused_with(fit.settings.wrong(), lacks);
        let column = || self.handed().refused_column();
        early.or_else(|| column().map(|column| (10, column as u32)))
    }
}

/// "the inverse of a nonzero one" is finite, or there is none to speak of.
fn has_inverse(constant: f64) -> bool {
    constant == 0.0 || (1.0 / constant).is_finite()
}

impl Prepared {
    /// What 7 of a preparation is about, "these for all columns first": "a
    /// Lipschitz constant, the inverse of a nonzero one, X'y entry".
    pub fn not_finite(&self) -> Option<NotFinite> {
        if !all_finite(&self.constants) {
            return Some(NotFinite::Constant);
        }
        if !self.constants.iter().all(|&constant| has_inverse(constant)) {
            return Some(NotFinite::Inverse);
        }
        (!all_finite(&self.products)).then_some(NotFinite::Product)
    }

    /// 10: "a prepared number not finite, a negative constant, or a nonzero one
    /// with an inverse not finite". -0.0 is not negative, and a zero.
    fn is_refused(constant: f64, product: f64) -> bool {
        let finite = constant.is_finite() && product.is_finite();
        !finite || constant < 0.0 || !has_inverse(constant)
    }

    /// "place: first such column".
    pub fn refused_column(&self) -> Option<usize> {
        let mut columns = self.constants.iter().zip(&self.products);
        columns.position(|(&constant, &product)| Prepared::is_refused(constant, product))
    }
}

impl SetCase {
    /// The violation of a weight that isn't zero (a NaN isn't) is never looked
    /// at.
    fn bad_violation(&self) -> Option<usize> {
        let mut pairs = self.weights.iter().zip(&self.violations);
        pairs.position(|(&weight, &violation)| {
            weight == 0.0 && (!violation.is_finite() || violation < 0.0)
        })
    }

    /// The first that applies, in document 01's order.
    pub fn refusal(&self) -> Option<Refusal> {
        let features = self.weights.len();
        if !FEATURES.contains(&features) || self.violations.len() != features {
            return Some((1, 0));
        }
        if !(1..=features).contains(&(self.start as usize)) {
            return Some((2, START));
        }
        if self.indices.len() < features {
            return Some((3, 0));
        }
        self.bad_violation().map(|feature| (8, feature as u32))
    }
}
