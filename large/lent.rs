//! The buffers that are lent to a preparation, to a solve and to a walk: guards in every place and in some behind what is lent, so that all that a call
//! leaves can be looked at.

use crate::calls::{prepare, solve, walk, Buffers};
use crate::cases::{Case, Ending};

/// Places behind what is lent.
pub const GUARDS: usize = 3;
const GUARD: f64 = -7.25e77;
pub const INDEX_GUARD: u32 = 0xdead_beef;

pub struct Room {
    w: Vec<f64>,
    fit: Vec<f64>,
    indices: Vec<u32>,
    scratch: Vec<f64>,
    prepared: Vec<f64>,
    /// Whether every call so far left the buffers as it must.
    kept: bool,
}

/// What a solve or a walk leaves at the front of these buffers, where indices and scratch are zero. Behind that they are as they were.
pub struct Left {
    pub w: Vec<f64>,
    pub fit: Vec<f64>,
    pub indices: usize,
    pub scratch: usize,
}

impl Left {
    /// "Refusals 1 to 6 change no lent buffer", nor does 10. "Refusal 7 leaves weights, fit, used scratch and indices at zero. A completed run leaves
    /// used scratch and indices at zero too." A walk's 11 leaves what a solve's 7 does.
    fn promised(case: &Case, ending: &Ending) -> Left {
        let rooms = || case.room().map(|length| length as usize);
        match ending {
            Ending::Refused { number: 7 | 11, .. } => {
                let [p, n, indices, scratch, _] = rooms();
                Left { w: vec![0.0; p], fit: vec![0.0; n], indices, scratch }
            }
            Ending::Refused { .. } => Left { w: vec![], fit: vec![], indices: 0, scratch: 0 },
            Ending::Fitted { weights, fit, .. } => {
                let [_, _, indices, scratch, _] = rooms();
                Left { w: weights.clone(), fit: fit.clone(), indices, scratch }
            }
        }
    }
}

/// Bit by bit.
pub fn same(these: &[f64], those: &[f64]) -> bool {
    these.len() == those.len() && these.iter().zip(those).all(|(this, that)| this.to_bits() == that.to_bits())
}

fn are(numbers: &[f64], x: f64) -> bool {
    numbers.iter().all(|number| number.to_bits() == x.to_bits())
}

/// Whether the numbers stand at the front of the places, and guards behind them.
fn hold(places: &[f64], numbers: &[f64]) -> bool {
    places.split_at_checked(numbers.len()).is_some_and(|(front, behind)| same(front, numbers) && are(behind, GUARD))
}

/// The same of zeros.
fn hold_zeros(places: &[f64], zeros: usize) -> bool {
    places.split_at_checked(zeros).is_some_and(|(front, behind)| are(front, 0.0) && are(behind, GUARD))
}

/// The first so many places, where those behind them are as they were.
fn front_alone<'a>(places: &'a [f64], before: &[f64], written: usize) -> Option<&'a [f64]> {
    let (front, behind) = places.split_at_checked(written)?;
    same(behind, &before[written..]).then_some(front)
}

fn indices_hold_zeros(indices: &[u32], zeros: usize) -> bool {
    let are = |indices: &[u32], x| indices.iter().all(|&index| index == x);
    indices.split_at_checked(zeros).is_some_and(|(front, behind)| are(front, 0) && are(behind, INDEX_GUARD))
}

fn all_but_guards<T>(places: &mut [T]) -> &mut [T] {
    let lent = places.len() - GUARDS;
    &mut places[..lent]
}

impl Room {
    /// Room to lend so many weights, fit entries, indices, scratch places and prepared numbers.
    pub fn new(lent: [usize; 5]) -> Room {
        let [w, fit, indices, scratch, prepared] = lent.map(|length| length + GUARDS);
        let guards = |length| vec![GUARD; length];
        Room { w: guards(w), fit: guards(fit), indices: vec![INDEX_GUARD; indices], scratch: guards(scratch), prepared: guards(prepared), kept: true }
    }

    /// The buffer of the prepared numbers, as far as it is lent.
    pub fn prepared(&mut self) -> &mut [f64] {
        all_but_guards(&mut self.prepared)
    }

    /// The preparation's refusal, if any. Of its numbers it is only tested here where they may stand: 7 leaves them +0, and refusals 1 to 6 as they were.
    pub fn prepare(&mut self, case: &Case) -> Option<Ending> {
        let before = self.prepared.clone();
        let refusal = prepare(case, self.prepared());
        let written = match refusal {
            None | Some((7, _)) => 2 * case.p as usize,
            Some(_) => 0,
        };
        let front = front_alone(&self.prepared, &before, written);
        self.kept &= front.is_some_and(|front| refusal.is_none() || are(front, 0.0));
        refusal.map(|(number, place)| Ending::Refused { number, place })
    }

    /// What is lent besides the prepared numbers, and all places of these.
    fn lent(&mut self) -> (Buffers<'_>, &mut [f64]) {
        let Room { w, fit, indices, scratch, prepared, .. } = self;
        (Buffers { w: all_but_guards(w), fit: all_but_guards(fit), indices: all_but_guards(indices), scratch: all_but_guards(scratch) }, prepared)
    }

    /// The solve with these of the prepared numbers: the first so many, which it may not change.
    pub fn solve_with(&mut self, case: &Case, count: usize) -> Ending {
        let before = self.prepared.clone();
        let (lent, prepared) = self.lent();
        let ending = solve(case, &prepared[..count], lent);
        self.kept &= same(&self.prepared, &before) && self.holds(&Left::promised(case, &ending));
        ending
    }

    /// With all that are lent.
    pub fn solve(&mut self, case: &Case) -> Ending {
        let lent = self.prepared.len() - GUARDS;
        self.solve_with(case, lent)
    }

    /// The walk's position, if it answers, and its ending. "Unless it is refused with 1 to 6, the walk's 2p prepared numbers end at zero."
    pub fn walk(&mut self, case: &Case, alphas: &[f64], most: usize) -> (Option<usize>, Ending) {
        let before = self.prepared.clone();
        let (lent, prepared) = self.lent();
        let (position, ending) = walk(case, alphas, most, all_but_guards(prepared), lent);
        let written = match ending {
            Ending::Refused { number: 1..=6, .. } => 0,
            _ => 2 * case.p as usize,
        };
        let cleared = front_alone(&self.prepared, &before, written).is_some_and(|front| are(front, 0.0));
        self.kept &= cleared && self.holds(&Left::promised(case, &ending));
        (position, ending)
    }

    /// Whether weights, fit, indices and scratch are left so, once a solve or a walk was asked.
    pub fn holds(&self, left: &Left) -> bool {
        let numbers = hold(&self.w, &left.w) && hold(&self.fit, &left.fit);
        numbers && indices_hold_zeros(&self.indices, left.indices) && hold_zeros(&self.scratch, left.scratch)
    }

    /// Whether all calls kept their promise of what lies in the buffers.
    pub fn left_as_promised(&self) -> bool {
        self.kept
    }
}
