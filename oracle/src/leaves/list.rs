//! How the list of the leaves is made.

use super::cases::{prox, soft, value, violation, Made};
use super::systems::system;
use crate::departures;
use crate::list::{Part, Recipe};
use crate::random::Random;
use crate::record::Record;

const HOW: [&str; 8] = [
    "Numbers come from splitmix64 started at the seed. Special: both signs of 0,",
    "infinity, NaN, the smallest and largest subnormal, the smallest normal, the",
    "largest finite, 1 and its neighbours, 0.5, 2; and numbers at a border of a",
    "formula or one ulp beside it. Ordinary: exponent -8 to 8 with any sign and",
    "digits, any bit pattern, quarters from -4 to 4. Code 1 begins with all pairs",
    "of specials. Code 5 begins with the refused sizes, then has each of twelve",
    "makes (regular, Gram, singular, nearly singular, special entries ..) in each",
    "size. The answers are those of the loops variant.",
];

/// Which departure of document 02 the answers have.
fn departed() -> Vec<String> {
    if !departures::holds(departures::NAN_STAYS) {
        return Vec::new();
    }
    let lines = [
        "by request 8 a NaN that reaches the soft threshold is answered with NaN;",
        "published answers +0.0, or what follows from it",
    ];
    lines.map(String::from).to_vec()
}

pub const LIST: Recipe = Recipe {
    layer: "leaves",
    shares: &[(1, 160), (2, 235), (3, 140), (4, 115), (5, 134), (6, 120)],
    last: 7,
    how: || HOW.to_vec(),
    part,
    notes: |_| departed(),
};

fn make(code: u32, index: usize, random: &mut Random) -> Made {
    match code {
        1 => soft(index, random),
        2 => prox(random),
        3 | 6 => violation(code == 3, random),
        4 | 7 => value(code == 4, random),
        _ => system(index, random),
    }
}

fn part(code: u32, cases: usize, random: &mut Random) -> Part {
    let (mut records, mut special) = (Vec::new(), 0);
    for index in 0..cases {
        let made = make(code, index, random);
        special += usize::from(made.special);
        records.push(Record::of(&made.case));
    }
    Part {
        code,
        records,
        remark: format!("{special} built from specials"),
        details: Vec::new(),
    }
}
