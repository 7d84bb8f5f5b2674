//! Made walks with their records, and what there is to be said of one.

use super::answers::{nonzero, End, Walked};
use super::rules::LIST;
use super::WalkCase;
use crate::designs::Refusal;
use crate::loops;
use crate::record::Record;
use crate::runs::{FitCase, Outcome, Report};

pub struct Made {
    pub case: WalkCase,
    pub record: Record,
    pub refusal: Option<Refusal>,
    /// Where it isn't refused with 1 to 6.
    walked: Option<Walked>,
}

impl Made {
    pub fn of(case: WalkCase) -> Made {
        let refusal = case.refusal();
        Made {
            record: Record::of(&case),
            walked: refusal.is_none().then(|| case.walked::<loops::Rust>()),
            refusal,
            case,
        }
    }

    /// Whether it isn't refused with 1 to 6.
    pub fn walks(&self) -> bool {
        self.walked.is_some()
    }

    pub fn fit(&self) -> &FitCase {
        &self.case.given.fit
    }

    /// The usable fit's.
    pub fn usable(&self) -> Option<&Report> {
        match &self.walked {
            Some(Walked {
                end: End::Usable(report),
                ..
            }) => Some(report),
            _ => None,
        }
    }

    pub fn passed(&self) -> &[Outcome] {
        let passed = self.walked.as_ref().map(|walked| &walked.passed[..]);
        passed.unwrap_or(&[])
    }

    pub fn position(&self) -> Option<usize> {
        self.usable().map(|_| self.passed().len())
    }

    pub fn none_usable(&self) -> bool {
        self.walks() && self.usable().is_none()
    }

    pub fn found_behind(&self, wanted: impl Fn(&Outcome) -> bool) -> bool {
        self.usable().is_some() && self.passed().iter().any(wanted)
    }

    /// The nonzero weights of a fit with status 1.
    pub fn weights_if_met(&self, outcome: &Outcome) -> Option<u64> {
        match outcome {
            Outcome::Finished(report) if self.fit().is_met(report) => Some(nonzero(report) as u64),
            _ => None,
        }
    }

    /// Whether its preparation gives 7.
    pub fn unprepared(&self) -> bool {
        let refusal = || self.case.pair(0.0).prepared_by::<loops::Rust>().0;
        self.none_usable() && refusal().is_some()
    }

    /// Whether m is the usable fit's number of nonzero weights.
    pub fn exactly_as_many(&self) -> bool {
        let report = self.usable();
        report.is_some_and(|report| nonzero(report) as u64 == self.case.most)
    }

    /// Whether a fit was passed over for one weight.
    pub fn one_too_many(&self) -> bool {
        let weights = |outcome| self.weights_if_met(outcome);
        let mut all = self.passed().iter().filter_map(weights);
        all.any(|weights| weights - 1 == self.case.most)
    }

    /// Whether it is refused for its list, and nothing else is wrong.
    pub fn list_alone(&self) -> bool {
        self.refusal == Some((2, LIST)) && !self.case.room_lacks() && self.content().is_none()
    }

    /// 4, 5 or 6, whatever comes before them.
    pub fn content(&self) -> Option<u32> {
        let FitCase {
            design, targets, ..
        } = self.fit();
        design.refused_content(targets).map(|(number, _)| number)
    }

    /// By so many places each lent buffer is longer than its room, weights, fit,
    /// indices, scratch and prepared numbers.
    pub fn spare(&self) -> [i64; 5] {
        let (lent, room) = (self.fit().lent, self.fit().room());
        let prepared = self.case.given.prepared.len() as i64;
        [
            i64::from(lent.weights) - i64::from(room.weights),
            i64::from(lent.fit) - i64::from(room.fit),
            i64::from(lent.indices) - i64::from(room.indices),
            i64::from(lent.scratch) - i64::from(room.scratch),
            prepared - self.case.given.twice_features() as i64,
        ]
    }
}
