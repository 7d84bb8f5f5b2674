//! How the list of the walks is made.

use super::cases::{self, AIMS};
use super::corners::{self, ByHand};
use super::faults::{self, list_faults, WalkFault, Wish, NUMBERS, SETTINGS};
use super::made::Made;
use super::told::details;
use super::WalkCase;
use crate::list::{refusals, Part, Recipe};
use crate::random::Random;
use crate::runs::faults::{Fault, Wanted};
use crate::runs::list::{notes, NUMBERS as NUMBERS_SAID};

const HOW: [&str; 30] = [
    "Code 23, a walk: the first alpha of a list whose fit has status 1 and at most m",
    "nonzero weights. The Rust has no walk; each fit is a preparation and a solve, as",
    "in code 20. It begins with walks built by hand, in both layouts: document 01's",
    "case with and without extrapolation; alphas whose rounding leaves a violation, 1,",
    "3, 63 and 64 of them, before exact ones; an alpha of MCP with which the weight",
    "overflows, before smaller ones; a constant, an inverse and an X'y that aren't",
    "finite; and a weight of -0.0 with m the number of the others. Then come every",
    "fault of the list, twice: none, 65, 66 and 128 alphas, NaN, infinities and",
    "negative ones at the first, a middle and the last entry, equal and rising",
    "neighbours there, and two zeros of either sign at its end; every wrong setting",
    "but alpha; each buffer that is too short; and refusals 1, 4, 5 and 6. Then a wrong",
    "list beside each wrong setting and beside 1, 3, 4, 5 and 6, twice, and a wrong",
    "setting beside one of these. Then 84 of 100 walks are not refused with 1 to 6, 6",
    "have a fault and 10 have two. n is 1 to 6, p too, and in one of ten 7 to 12; numbers,",
    "settings and lent buffers are as in a list of pairs, with at most 8 iterations and",
    "40 epochs, or 3 and 12 for more than 8 alphas, and every second tolerance is a",
    "part of alpha_max, 1e-14 to 0.1 of it. In one of forty lists there are 64 alphas,",
    "in one 9 to 63, in four 1, in four 2, else 3 to 8 (fewer where drawn ones are",
    "equal). They fall by one factor or by equal parts, are neighbours, or are drawn",
    "one by one as in a list of pairs; in one of ten the last is +0.0 or -0.0. The",
    "settings' alpha is NaN, infinite, negative or any other. A walk is drawn with one",
    "of nine aims, m being chosen for it: that the first, a middle or the last alpha",
    "is usable, or none; that before the usable one a fit gives 7 (large targets, 1 or",
    "2 samples, the last alpha mostly zero), has status 2, or has status 1 and too many",
    "weights; that the usable fit has a weight of -0.0; or nothing. m is then often the",
    "least or the largest that does, the latter 2^32 and more where there is none. Where",
    "120 draws don't come to the aim, the walk is taken as it comes. Of each fit that was",
    "run the Rust's own run, which prepares by itself, was seen to end alike. Where the",
    "published text panics in one of the fits, it has no answer to the walk, and is",
    "counted by itself. There is no walk with arrays of 8,192 or 8,193 entries.",
];

pub const WALKS: Recipe = Recipe {
    layer: "walks",
    shares: &[],
    last: WalkCase::CODE,
    how: || [&NUMBERS_SAID[..], &HOW].concat(),
    part,
    notes,
};

/// The faults that come one by one: what is wrong with the list (twice), with a setting
/// and with the room (twice where one place lacks), and two of each number that the
/// inputs give.
fn alone() -> Vec<Vec<Wish>> {
    let common = faults::common_faults().into_iter();
    let not_inputs = common.filter(|fault| !matches!(fault, Fault::Input(_)));
    let one_by_one = list_faults()
        .into_iter()
        .chain(not_inputs.map(WalkFault::Common));
    let again = list_faults().into_iter().chain(faults::lacking_one());
    let all = one_by_one.chain(again);
    let mut wishes: Vec<Vec<Wish>> = all.map(|fault| vec![Wish::This(fault)]).collect();
    for number in [1, 4, 5, 6] {
        wishes.extend([(); 2].map(|()| vec![Wish::Common(Wanted::Number(number))]));
    }
    wishes
}

/// A wrong list beside each setting and each other number, and a setting beside another
/// number.
fn beside() -> Vec<Vec<Wish>> {
    let settings = SETTINGS.map(|index| Wish::Common(Wanted::Setting(index)));
    let numbers = NUMBERS.map(|number| Wish::Common(Wanted::Number(number)));
    let others = settings.into_iter().chain(numbers);
    let lists = others.flat_map(|wish| [vec![Wish::AnyList, wish], vec![Wish::AnyList, wish]]);
    let turns = settings.into_iter().zip(numbers.into_iter().cycle());
    let turns = turns.map(|(setting, number)| vec![setting, number]);
    lists.chain(turns).collect()
}

/// Makes the walks, one after the other.
struct Maker<'a> {
    by_hand: Vec<ByHand>,
    spoiled: Vec<Vec<Wish>>,
    random: &'a mut Random,
}

impl Maker<'_> {
    fn made(&mut self, index: usize) -> WalkCase {
        if let Some((case, _)) = self.by_hand.get(index) {
            return case.clone();
        }
        let index = index - self.by_hand.len();
        if let Some(wishes) = self.spoiled.get(index) {
            return faults::spoiled(wishes, self.random);
        }
        self.drawn()
    }

    fn drawn(&mut self) -> WalkCase {
        let random = &mut *self.random;
        match random.below(100) {
            0..=83 => cases::drawn(random.pick(&AIMS), random),
            84..=89 => faults::spoiled(&[Wish::Any], random),
            _ => faults::spoiled(&[Wish::Any, Wish::Any], random),
        }
    }
}

fn part(code: u32, cases: usize, random: &mut Random) -> Part {
    let mut maker = Maker {
        by_hand: corners::by_hand(),
        spoiled: [alone(), beside()].concat(),
        random,
    };
    let made: Vec<Made> = (0..cases)
        .map(|index| Made::of(maker.made(index)))
        .collect();
    let details = details(&made);
    let records: Vec<_> = made.into_iter().map(|made| made.record).collect();
    Part {
        code,
        remark: refusals(&records),
        records,
        details,
    }
}
