//! How the lists of the runs are made: pairs, solves with handed numbers and working
//! sets together, one of the first two alone, or pairs that extrapolate.

use super::pairs::{self, pairs};
use super::solves::{self, solves};
use super::{extrapolated, sets, PairCase, SetCase, SolveCase};
use crate::list::{refusals, Part, Recipe};
use crate::random::Random;
use crate::record::Record;

pub const NUMBERS: [&str; 2] = [
    "Codes are hex like the other counts. Numbers come from splitmix64 started at",
    "the seed. The answers are those of the loops variant.",
];

const SETS: [&str; 5] = [
    "Code 21, a working set: 1 to 12 features, in one of ten cases 21 to 40; weights",
    "with zeros of both signs, NaN and infinities, violations with many, few or no",
    "equal ones. It begins with every fault; then 80 of 100 cases have no fault, 10",
    "have one and 10 have two. There is no case with arrays of 8,192 or 8,193",
    "entries.",
];

pub const LIST: Recipe = Recipe {
    layer: "runs",
    shares: &[(PairCase::CODE, 500), (SolveCase::CODE, 300)],
    last: SetCase::CODE,
    how: || [NUMBERS.to_vec(), pairs::how(), solves::how(), SETS.to_vec()].concat(),
    part,
    notes,
};

pub const PAIRS: Recipe = Recipe {
    layer: "pairs",
    shares: &[],
    last: PairCase::CODE,
    how: || [NUMBERS.to_vec(), pairs::how()].concat(),
    part,
    notes,
};

pub const HANDED: Recipe = Recipe {
    layer: "handed",
    shares: &[],
    last: SolveCase::CODE,
    how: || [NUMBERS.to_vec(), solves::how()].concat(),
    part,
    notes,
};

pub const EXTRAPOLATED: Recipe = Recipe {
    layer: "extrapolated",
    shares: &[],
    last: PairCase::CODE,
    how: || [&NUMBERS[..], &extrapolated::HOW].concat(),
    part: extrapolated::part,
    notes,
};

fn make_set(index: usize, faults: &[sets::Fault], random: &mut Random) -> SetCase {
    if let Some(&fault) = faults.get(index) {
        return sets::spoiled(fault, random);
    }
    match random.below(100) {
        0..=79 => sets::sound(random),
        80..=89 => sets::spoiled(random.pick(faults), random),
        _ => sets::twice_spoiled(faults, random),
    }
}

fn working_sets(cases: usize, random: &mut Random) -> Part {
    let faults = sets::faults();
    let made = |index| Record::of(&make_set(index, &faults, random));
    let records: Vec<Record> = (0..cases).map(made).collect();
    Part {
        code: SetCase::CODE,
        remark: refusals(&records),
        records,
        details: Vec::new(),
    }
}

fn part(code: u32, cases: usize, random: &mut Random) -> Part {
    match code {
        PairCase::CODE => pairs(cases, random),
        SolveCase::CODE => solves(cases, random),
        _ => working_sets(cases, random),
    }
}

pub fn notes(parts: &[Part]) -> Vec<String> {
    let all = parts.iter().flat_map(|part| &part.records);
    let longest = all.map(Record::length).max().unwrap_or(0);
    vec![format!("the longest record has {longest} words")]
}
