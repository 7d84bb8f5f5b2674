//! How the list of the solves with handed numbers is made.

use super::faults::{Asked, Fault, Wanted};
use super::made::{self, Made};
use super::watch::NotFinite;
use super::{corners, faults, handed, SolveCase};
use crate::departures::{self, STEPS_PAIRED};
use crate::list::Part;
use crate::random::Random;

const HOW: [&str; 19] = [
    "Code 22, a solve with handed numbers: problems and settings as in code 20 (a list",
    "of pairs says how), the settings measured by the handed numbers, with 8",
    "iterations and 40 epochs at most, unless the run ends at once; in a fifth of the",
    "designs some columns are cleared. The numbers are the design's own; with",
    "constants too small (the run swings or diverges), too large (it crawls), each",
    "with a factor of its own, or all +0.0 and -0.0; with X'y turned; those of",
    "another design; moderate ones; or odd ones in one column, in some or in all:",
    "+0.0, -0.0, subnormal, smallest normal, huge with a subnormal inverse, and at",
    "the border where an inverse overflows. (No finite number has an inverse of 0.)",
    "Behind their room come up to 3 places with any double. The list begins with",
    "solves built by hand, in both layouts; then come every fault that a solve",
    "refuses with 1 to 6 or with 10 (NaN, infinite, negative, without a finite",
    "inverse, at the first, a middle and the last column and in all; too few",
    "numbers: none, half, one too few); a bad constant and a bad entry of X'y in two",
    "columns; refusal 10 beside every setting and every other number; every odd",
    "number in one column and in all; and ten solves for each number that refusal 7",
    "of a solve is about. Then 72 of 100 cases are drawn so, 12 are drawn until one",
    "accepts an extrapolation (each K as often as the others), 6 have a fault and 10",
    "have two. The Rust computes its constants and X'y itself: here its datafit takes",
];

const LEFT_OUT: [&str; 2] = [
    "the handed ones in their place, and all else is its own. What code 20 leaves out",
    "is left out here too.",
];

const LEFT_OUT_WITHOUT_3: [&str; 2] = [
    "the handed ones in their place, and all else is its own. What code 20 leaves out",
    "or redraws is left out or redrawn here too.",
];

/// How the solves are chosen.
pub fn how() -> Vec<&'static str> {
    let left_out = match departures::holds(STEPS_PAIRED) {
        true => LEFT_OUT,
        false => LEFT_OUT_WITHOUT_3,
    };
    [&HOW[..], &left_out].concat()
}

/// What refusal 7 of a solve is about: the handed numbers were tested before.
const NUMBERS: [NotFinite; 4] = [
    NotFinite::Gradient,
    NotFinite::Violation,
    NotFinite::Weight,
    NotFinite::FitEntry,
];
const FOR_EACH_NUMBER: usize = 10;

/// Makes the solves, one after the other.
struct Maker<'a> {
    by_hand: Vec<SolveCase>,
    faults: Vec<Fault>,
    columns: Vec<[Fault; 2]>,
    wanted: Vec<[Wanted; 2]>,
    odds: Vec<handed::Odd>,
    redrawn: usize,
    random: &'a mut Random,
}

impl Maker<'_> {
    fn new(random: &mut Random) -> Maker<'_> {
        Maker {
            by_hand: corners::handed_by_hand(),
            faults: Asked::Solve.faults(),
            columns: faults::bad_columns(),
            wanted: faults::numbers_beside(),
            odds: handed::odds(),
            redrawn: 0,
            random,
        }
    }

    fn made(&mut self, index: usize) -> SolveCase {
        if let Some(case) = self.by_hand.get(index) {
            return case.clone();
        }
        let index = index - self.by_hand.len();
        if let Some(&fault) = self.faults.get(index) {
            return SolveCase(Asked::Solve.spoiled(fault, self.random));
        }
        let index = index - self.faults.len();
        if let Some(&pair) = self.columns.get(index) {
            return SolveCase(Asked::Solve.spoiled_with(pair, self.random));
        }
        let index = index - self.columns.len();
        if let Some(&wanted) = self.wanted.get(index) {
            return SolveCase(Asked::Solve.spoiled_as(wanted, &self.faults, self.random));
        }
        let index = index - self.wanted.len();
        if let Some(&odd) = self.odds.get(index) {
            return handed::with_odd(odd, self.random);
        }
        let index = index - self.odds.len();
        match NUMBERS.get(index / FOR_EACH_NUMBER) {
            Some(&number) => handed::not_finite(number, self.random),
            None => self.drawn(),
        }
    }

    fn drawn(&mut self) -> SolveCase {
        let random = &mut *self.random;
        match random.below(100) {
            0..=71 => handed::sound(&mut self.redrawn, random),
            72..=83 => handed::extrapolated(random),
            84..=89 => {
                let fault = random.pick(&self.faults);
                SolveCase(Asked::Solve.spoiled(fault, random))
            }
            _ => SolveCase(Asked::Solve.twice_spoiled(&self.faults, random)),
        }
    }
}

pub fn solves(cases: usize, random: &mut Random) -> Part {
    let mut maker = Maker::new(random);
    let made = (0..cases).map(|index| Made::solve(maker.made(index)));
    let made = made.collect();
    made::part(SolveCase::CODE, made, maker.redrawn)
}
