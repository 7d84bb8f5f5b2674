//! The sign law, run through the exports: a problem is prepared and solved, or walked, as it is and with its targets, some of its columns or both
//! turned, that is, with the other sign, and the answers are compared.

use crate::cases::{Case, Ending};
use crate::problems::pair;

/// A set of columns: it has column j where bit j is 1, and the bits come again from column 64 on.
pub type Set = u64;
const ALL: Set = 0xffff_ffff;

const TURNS: [&str; 3] = ["targets turned", "columns turned", "both turned"];

/// Fits that turned as they must, refusals that stayed, and answers that differ, for each turn.
#[derive(Default)]
pub struct Tally([[u64; 3]; 3]);

/// Those with extrapolation off, and those with it on.
#[derive(Default)]
pub struct Tallies {
    off: Tally,
    on: Tally,
}

/// The columns that a case turns. A number drawn from the case's says whether it is one column, all or any; where p > 0 there is always one.
fn chosen(number: u64, p: u32) -> Set {
    if p == 0 {
        return 0;
    }
    let draw = (number % 0x10000 * 0x9e37_79b1) >> 16;
    let one = 1 << (draw / 3 % u64::from(p));
    match draw % 3 {
        0 => one,
        1 => ALL,
        _ => one | draw,
    }
}

fn turned(x: f64, is_turned: bool) -> f64 {
    if is_turned { -x } else { x }
}

fn has(set: Set, j: usize) -> bool {
    set >> (j % 64) & 1 == 1
}

/// The problem with the targets turned, or the columns of a set, or both. Starts that lead out of the values are passed over: such a design is refused.
fn turned_case(case: &Case, targets: bool, set: Set) -> Case {
    let mut other = case.clone();
    other.targets.iter_mut().for_each(|y| *y = turned(*y, targets));
    let p = case.p as usize;
    if case.csc {
        for (_, bounds) in case.starts.windows(2).take(p).enumerate().filter(|(j, _)| has(set, *j)) {
            let column = other.values.get_mut(bounds[0] as usize..bounds[1] as usize);
            column.into_iter().flatten().for_each(|x| *x = -*x);
        }
    } else {
        other.values.iter_mut().enumerate().for_each(|(k, x)| *x = turned(*x, p > 0 && has(set, k % p)));
    }
    other
}

/// Whether numbers are those before, turned; a zero's sign is disregarded.
fn same(before: &[f64], after: &[f64], is_turned: impl Fn(usize) -> bool) -> bool {
    before.len() == after.len() && (0..before.len()).all(|at| before[at] == turned(after[at], is_turned(at)))
}

/// The place in a tally of what became of the answer: 0 turned, 1 the same refusal, 2 another.
fn outcome(plain: &Option<Ending>, other: &Option<Ending>, targets: bool, set: Set) -> usize {
    match (plain, other) {
        (Some(Ending::Refused { number, place }), Some(Ending::Refused { number: n, place: p })) if (number, place) == (n, p) => 1,
        (
            Some(Ending::Fitted { status, violation, counts, weights, fit }),
            Some(Ending::Fitted { status: s, violation: v, counts: c, weights: w, fit: f }),
        ) if (status, violation, counts) == (s, v, c) && same(weights, w, |j| has(set, j) != targets) && same(fit, f, |_| targets) => 0,
        _ => 2,
    }
}

impl Tally {
    /// Asks for a problem as it is and with each turn.
    pub fn turn(&mut self, case: &Case, set: Set, ask: impl Fn(&Case) -> Option<Ending>) {
        let plain = ask(case);
        for (tally, (targets, set)) in self.0.iter_mut().zip([(true, 0), (false, set), (true, set)]) {
            let other = ask(&turned_case(case, targets, set));
            tally[outcome(&plain, &other, targets, set)] += 1;
        }
    }

    pub fn hold(&self) -> bool {
        self.0.iter().all(|[_, _, differ]| *differ == 0)
    }

    /// A line for each turn, which says of what.
    pub fn print(&self, of: &str) {
        for (turn, [fits, refusals, differ]) in TURNS.iter().zip(self.0) {
            println!("signs, {of}{turn}: {fits} fits and {refusals} refusals agree, {differ} differ");
        }
    }
}

impl Tallies {
    /// A problem is turned with extrapolation off and with it on. One that has it off has its own depth, or where that would be refused one from its
    /// number; one that has it on keeps its depth, and with it a refusal.
    pub fn turn(&mut self, mut case: Case, number: u64) {
        let (set, s) = (chosen(number, case.p), &mut case.settings);
        if !s.extrapolate && !(1..=10).contains(&s.depth) {
            s.depth = 1 + (number % 10) as u32;
        }
        for (tally, extrapolate) in [(&mut self.off, false), (&mut self.on, true)] {
            case.settings.extrapolate = extrapolate;
            case.lent = case.room();
            tally.turn(&case, set, pair);
        }
    }

    pub fn hold(&self) -> bool {
        self.off.hold() && self.on.hold()
    }

    pub fn print(&self) {
        self.off.print("extrapolation off, ");
        self.on.print("extrapolation on, ");
    }
}
