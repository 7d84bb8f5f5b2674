//! How the list of the pairs is made.

use super::faults::{Asked, Fault, Wanted};
use super::made::{self, Made, NUMBERS};
use super::{cases, corners, faults, FitCase, PairCase};
use crate::departures::{self, STEPS_PAIRED};
use crate::list::Part;
use crate::random::Random;

const PROBLEMS: [&str; 14] = [
    "Code 20, a preparation and then a solve with the numbers that it left: n and p",
    "are 1 to 8, now and then up to 20, and in one of a hundred cases p is 21 to 30",
    "with many equal columns; every second design is CSC. Numbers are moderate",
    "(exponent -2 to 2), small integers, columns that all but agree, columns with",
    "one power of two (exact solutions), columns of very different size, subnormal",
    "targets, columns that give weights of -0.0, or strained: squares that vanish or",
    "overflow, targets and steps that overflow or nearly. A quarter of the designs",
    "has zeros strewn in, a seventh an empty row; a third has copies of columns",
    "(with a factor), zero columns, or columns whose squares vanish. Half of the",
    "ordinary targets are integer sums of columns, mostly with noise. alpha is",
    "mostly a part of alpha_max, else +0.0, -0.0, about alpha_max, above it, or",
    "huge; tolerances are mostly +0.0 or a small part of alpha_max. In 3 of 100",
    "runs the settings are at the ends of their ranges and the run ends at once; in",
    "1 of 100 there are 1,000 iterations. Extrapolation is on in 60 of 100; there",
];

const STEPS: [&str; 2] = [
    "the start size is mostly at least K, in one of ten any; the step is made from",
    "fewer than K places too, p below K among them. Lent buffers are as long as",
];

const STEPS_WITHOUT_3: [&str; 3] = [
    "the start size is mostly at least K, since the Rust panics where it",
    "extrapolates from fewer than K places. With p below K the Rust is run without",
    "extrapolation, which is the same by document 01. Lent buffers are as long as",
];

const ORDER: [&str; 11] = [
    "their room or up to 3 places longer, and that of the prepared numbers holds",
    "any doubles before. The list begins with runs built by hand (P8, P9, P10 and",
    "corners, in both layouts); then come every fault that either call refuses with",
    "1 to 6; every two settings that are wrong, in both orders, and every wrong",
    "setting beside each other refusal, a buffer that is too short for the",
    "preparation and a constant, inverse or X'y that isn't finite among them: there",
    "the preparation refuses first, where document 01's single call found the",
    "setting; and ten runs for each number that refusal 7 is about, but for a",
    "violation: of a design's own numbers no run was found in which it is the first",
    "that isn't finite. Then 72 of 100 cases are drawn so, 12 are drawn until one",
    "accepts an extrapolation (each K as often as the others), 6 have a fault and 10",
];

const NOTES: [&str; 8] = [
    "have two. There is no case with arrays of 8,192 or 8,193 entries. A number that",
    "isn't finite is told apart by the first one, in the order of the Rust's steps,",
    "in every run that is not refused with 1 to 6 in document 01's order. A candidate",
    "of a smaller objective whose entries aren't all finite is not accepted, by",
    "document 01; the Rust would take it. The published text panics where it",
    "extrapolates from fewer than K places, which is counted by itself. Of each pair",
    "that is answered, and of each whose run is refused with 7, the Rust's own run,",
    "which prepares by itself, was seen to end alike, in both variants.",
];

const NOTES_WITHOUT_3: [&str; 10] = [
    "have two. There is no case with arrays of 8,192 or 8,193 entries, and none of a",
    "working set of fewer than K places where the step would be tried, unless p is",
    "below K. A number that isn't finite is told apart by the first one, in the",
    "order of the Rust's steps, in every run that is not refused with 1 to 6 in",
    "document 01's order. A candidate of a smaller objective whose entries aren't",
    "all finite is not accepted, by document 01; the Rust would take it. A case is",
    "redrawn where the Rust panics; those that are drawn until something is found",
    "are not counted there. Of each pair that is answered, and of each whose run is",
    "refused with 7, the Rust's own run, which prepares by itself, was seen to end",
    "alike, in both variants.",
];

/// How the pairs are chosen; without request 3 the step and the notes are others.
pub fn how() -> Vec<&'static str> {
    let (steps, notes) = if departures::holds(STEPS_PAIRED) {
        (&STEPS[..], &NOTES[..])
    } else {
        (&STEPS_WITHOUT_3[..], &NOTES_WITHOUT_3[..])
    };
    [&PROBLEMS, steps, &ORDER, notes].concat()
}

const FOR_EACH_NUMBER: usize = 10;

/// Of each setting one case.
const SETTINGS: usize = 7;

/// Makes the pairs, one after the other.
struct Maker<'a> {
    by_hand: Vec<FitCase>,
    faults: Vec<Fault>,
    wanted: Vec<[Wanted; 2]>,
    redrawn: usize,
    random: &'a mut Random,
}

impl Maker<'_> {
    fn new(random: &mut Random) -> Maker<'_> {
        Maker {
            by_hand: [corners::by_hand(), corners::further_by_hand()].concat(),
            faults: Asked::Pair.faults(),
            wanted: [faults::setting_pairs(), faults::settings_beside()].concat(),
            redrawn: 0,
            random,
        }
    }

    fn with_buffer(&mut self, case: FitCase) -> PairCase {
        PairCase(cases::with_buffer(case, self.random))
    }

    fn made(&mut self, index: usize) -> PairCase {
        if let Some(case) = self.by_hand.get(index) {
            return self.with_buffer(case.clone());
        }
        let index = index - self.by_hand.len();
        if let Some(&fault) = self.faults.get(index) {
            return PairCase(Asked::Pair.spoiled(fault, self.random));
        }
        let index = index - self.faults.len();
        if let Some(&wanted) = self.wanted.get(index) {
            return PairCase(Asked::Pair.spoiled_as(wanted, &self.faults, self.random));
        }
        self.of_settings(index - self.wanted.len())
    }

    /// Those in which the preparation refuses before the solve knows the settings.
    fn of_settings(&mut self, index: usize) -> PairCase {
        let setting = (index % SETTINGS) as u32;
        match index / SETTINGS {
            0 => PairCase(faults::misset_and_cut(setting, &self.faults, self.random)),
            1 => PairCase(faults::misset_behind_seven(
                setting,
                &self.faults,
                self.random,
            )),
            _ => self.of_numbers(index - 2 * SETTINGS),
        }
    }

    fn of_numbers(&mut self, index: usize) -> PairCase {
        let number = NUMBERS.get(index / FOR_EACH_NUMBER);
        let found = number.and_then(|&(number, _)| cases::not_finite(number, self.random));
        match found {
            Some(case) => self.with_buffer(case),
            None => self.drawn(),
        }
    }

    fn drawn(&mut self) -> PairCase {
        let random = &mut *self.random;
        match random.below(100) {
            0..=71 => cases::sound(&mut self.redrawn, random),
            72..=83 => {
                let depth = cases::any_depth(random);
                let case = cases::extrapolated_from(depth, random);
                self.with_buffer(case)
            }
            84..=89 => {
                let fault = random.pick(&self.faults);
                PairCase(Asked::Pair.spoiled(fault, random))
            }
            _ => PairCase(Asked::Pair.twice_spoiled(&self.faults, random)),
        }
    }
}

pub fn pairs(cases: usize, random: &mut Random) -> Part {
    let mut maker = Maker::new(random);
    let made = (0..cases).map(|index| Made::pair(maker.made(index)));
    let made = made.collect();
    made::part(PairCase::CODE, made, maker.redrawn)
}
