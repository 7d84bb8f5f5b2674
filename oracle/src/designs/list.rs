//! How the list of the designs is made.

use super::cases::sound;
use super::faults::{plans, spoiled, twice_spoiled, Plan};
use super::{Call, DesignCase, Layout};
use crate::list::{refusals, Part, Recipe};
use crate::random::Random;
use crate::record::Record;
use crate::words::Word;

const HOW: [&str; 17] = [
    "Codes are hex like the other counts. Numbers come from splitmix64 started at",
    "the seed. n and p are 1 to 6, now and then up to 9; every second design is",
    "CSC, with empty and full columns and sometimes with nothing stored. The",
    "numbers of an array are moderate (exponent -8 to 8), integers from -3 to 3,",
    "tiny (subnormal, or with vanishing products), large (overflowing products),",
    "huge (overflowing sums), zeros of both signs, or a mixture; a quarter of the",
    "designs has zeros strewn in. What may hold any double has NaN, infinities and",
    "any bit pattern too in a third of the cases. Half of the lent buffers are",
    "longer than their room, by up to 3 places. The prepared numbers of codes 11",
    "and 12 are the Rust's own, from targets that may hold any double, and in one",
    "of eight cases any doubles. Each code begins with every fault that it can",
    "refuse, in each layout, at the first, a middle and the last place (a short",
    "buffer: empty, half, one too short). Then 70 of 100 cases have no fault, 12",
    "have one and 18 have two, of different numbers or at two places. There is no",
    "case of more than 16,777,216 values, nor of p = 8,192 or 8,193 with arrays of",
    "that length; n = 65,536 comes up with fits that are too short. The answers are",
    "those of the loops variant.",
];

pub const LIST: Recipe = Recipe {
    layer: "designs",
    shares: &[
        (Call::Initialize as u32, 130),
        (Call::Gradient as u32, 130),
        (Call::FullGradient as u32, 130),
        (Call::Value as u32, 90),
        (Call::UpdateFit as u32, 130),
        (Call::ExtrapolatedFit as u32, 170),
        (Call::AlphaMax as u32, 140),
    ],
    last: Call::Check as u32,
    how: || HOW.to_vec(),
    part,
    notes,
};

fn make(call: Call, index: usize, plans: &[Plan], random: &mut Random) -> DesignCase {
    if let Some(&plan) = plans.get(index) {
        return spoiled(call, plan, random);
    }
    match random.below(100) {
        0..=69 => {
            let layout = random.pick(&[Layout::Dense, Layout::Csc]);
            sound(call, layout, random)
        }
        70..=81 => spoiled(call, random.pick(plans), random),
        _ => twice_spoiled(call, plans, random),
    }
}

fn part(code: u32, cases: usize, random: &mut Random) -> Part {
    let call = Call::of(code).expect("a code of the recipe");
    let plans = plans(call);
    let made = |index| Record::of(&make(call, index, &plans, random));
    let records: Vec<Record> = (0..cases).map(made).collect();

    Part {
        code,
        remark: refusals(&records),
        records,
        details: Vec::new(),
    }
}

/// Only where X'y holds a NaN is the largest of them one.
fn drops_nan(record: &Record) -> bool {
    record.answers()[2] == Word::Double(f64::NAN)
}

fn notes(parts: &[Part]) -> Vec<String> {
    let alpha_max = |part: &&Part| part.code == Call::AlphaMax as u32;
    let records = parts
        .iter()
        .filter(alpha_max)
        .flat_map(|part| &part.records);
    let dropped = records.filter(|record| drops_nan(record)).count();
    let all = parts.iter().flat_map(|part| &part.records);
    let longest = all.map(Record::length).max().unwrap_or(0);
    vec![
        format!(
            "code 16: the Rust drops NaN in {dropped} cases, in which r is NaN as document 01 says"
        ),
        format!("the longest record has {longest} words"),
    ]
}
