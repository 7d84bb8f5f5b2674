//! The refusals of a walk, in the words of request 7.

use super::WalkCase;
use crate::designs::Refusal;
use std::ops::RangeInclusive;

/// "Forecasters hand in 1 to 64 falling alphas".
pub const LENGTHS: RangeInclusive<usize> = 1..=64;

/// "(place 7, after the places of request 1)".
pub const LIST: u32 = 7;

/// "11 (none usable, place 0)".
pub const NONE_USABLE: Refusal = (11, 0);

/// Document 01: "alpha [is] finite and at least 0". A comparison of doubles: a NaN is
/// bad, -0.0 isn't.
fn is_bad(alpha: f64) -> bool {
    !(alpha.is_finite() && alpha >= 0.0)
}

impl WalkCase {
    /// "2 if the list is empty, too long, not strictly falling or holds a bad alpha". As
    /// doubles compare: -0.0 is not below 0.0.
    pub fn list_is_wrong(&self) -> bool {
        let falls = |neighbours: &[f64]| neighbours[1] < neighbours[0];
        !LENGTHS.contains(&self.alphas.len())
            || self.alphas.iter().any(|&alpha| is_bad(alpha))
            || !self.alphas.windows(2).all(falls)
    }

    pub fn room_lacks(&self) -> bool {
        self.given.fit.room_lacks() || self.given.prepared_lacks()
    }

    /// 1 to 6, all that comes before the walk's preparation.
    pub fn refusal(&self) -> Option<Refusal> {
        let fit = &self.given.fit;
        let list = self.list_is_wrong().then_some(LIST);
        let wrong = fit.settings.wrong_beside_alpha().or(list);
        fit.refused_with(wrong, || self.room_lacks())
    }
}
