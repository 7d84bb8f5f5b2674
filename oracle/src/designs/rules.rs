//! Document 01's refusals, which the Rust lacks. Refusal 2 has no setting here
//! to speak of, and smaller calls never give 7.

use super::{Design, DesignCase, Input, Layout};
use std::ops::RangeInclusive;

const SAMPLES: RangeInclusive<usize> = 1..=65_536;
pub const FEATURES: RangeInclusive<usize> = 1..=8_192;
const MOST_STORED: usize = 16_777_216;

/// Number and place.
pub type Refusal = (u32, u32);

impl Design {
    fn sizes_hold(&self) -> bool {
        let (samples, features) = (self.samples as usize, self.features as usize);
        let stored = self.values.len();
        let lengths_agree = match self.layout {
            Layout::Dense => {
                stored == samples * features && self.starts.is_empty() && self.rows.is_empty()
            }
            Layout::Csc => self.starts.len() == features + 1 && self.rows.len() == stored,
        };
        FEATURES.contains(&features) && stored <= MOST_STORED && lengths_agree
    }

    /// At each start all conditions are tried.
    fn bad_start(&self) -> Option<usize> {
        let stored = self.values.len();
        (0..self.starts.len()).find(|&index| {
            let start = self.starts[index];
            let first = index == 0;
            let last = index + 1 == self.starts.len();
            (first && start != 0)
                || (!first && start < self.starts[index - 1])
                || start as usize > stored
                || (last && start as usize != stored)
        })
    }

    /// The starts are known to be good, so they rise.
    fn bad_row(&self) -> Option<usize> {
        (0..self.rows.len()).find(|&position| {
            let row = self.rows[position];
            let heads_column = self.starts.binary_search(&(position as u32)).is_ok();
            row >= self.samples || (!heads_column && row <= self.rows[position - 1])
        })
    }

    /// Targets are tested first; values are counted from n, also where there
    /// are no targets.
    fn bad_number(&self, targets: &[f64]) -> Option<usize> {
        let value = || not_finite(&self.values);
        not_finite(targets).or_else(|| value().map(|position| self.samples as usize + position))
    }

    /// Refusal 1 of a design with its targets.
    pub fn sizes_hold_with(&self, targets: &[f64]) -> bool {
        let samples = self.samples as usize;
        SAMPLES.contains(&samples) && self.sizes_hold() && targets.len() == samples
    }

    /// Refusals 4 to 6, where the lengths agree.
    pub fn refused_content(&self, targets: &[f64]) -> Option<Refusal> {
        let at = |number| move |place| (number, place as u32);
        let start = self.bad_start().map(at(4));
        start
            .or_else(|| self.bad_row().map(at(5)))
            .or_else(|| self.bad_number(targets).map(at(6)))
    }
}

fn not_finite(numbers: &[f64]) -> Option<usize> {
    numbers.iter().position(|x| !x.is_finite())
}

impl DesignCase {
    fn sizes_hold(&self) -> bool {
        let samples = self.samples();
        let features = self.design.features;
        let design = !self.call.takes(Input::Design) || self.design.sizes_hold();
        let targets = !self.call.takes(Input::Targets) || self.targets.len() == samples;
        let set = self.features.len() <= features as usize;
        let inside = self.features.iter().all(|&feature| feature < features);
        SAMPLES.contains(&samples) && design && targets && set && inside
    }

    fn room_lacks(&self) -> bool {
        let rooms = self.call.rooms().into_iter();
        let mut lent = rooms.zip(&self.lent);
        lent.any(|(room, buffer)| buffer.len() < self.length(room))
    }

    /// The first that applies, in document 01's order.
    pub fn refusal(&self) -> Option<Refusal> {
        if !self.sizes_hold() {
            return Some((1, 0));
        }
        if self.room_lacks() {
            return Some((3, 0));
        }
        self.design.refused_content(&self.targets)
    }
}
