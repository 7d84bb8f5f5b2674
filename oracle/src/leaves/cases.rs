//! Made cases of the soft threshold and the penalties. A case is built from
//! specials (special numbers, and numbers at a border of a formula or one ulp
//! beside it) or from ordinary numbers (see `Random::ordinary`).

use super::{Kind, Leaf, Penalty};
use crate::random::{Random, SPECIALS};

/// A case and whether it was built from specials.
pub struct Made {
    pub case: Leaf,
    pub special: bool,
}

/// Shares are of a hundred.
const SPECIAL_SHARE: usize = 50;
const PUBLIC_IN_RANGE: usize = 75;
const INNER_IN_RANGE: usize = 50;

/// Of the cases built from specials, those whose settings are special too; the
/// others have ordinary settings, so that their borders are ordinary numbers.
const ONLY_SPECIAL: usize = 25;

fn draw(random: &mut Random, special: bool) -> f64 {
    if special {
        random.special()
    } else {
        random.ordinary()
    }
}

/// Every pair of special numbers; the two NaNs count as one.
fn special_pair(index: usize) -> Option<(f64, f64)> {
    let signed = SPECIALS.iter().flat_map(|&x| [x, -x]);
    let all: Vec<f64> = signed
        .filter(|x| !(x.is_nan() && x.is_sign_negative()))
        .collect();
    let (first, second) = (index / all.len(), index % all.len());
    all.get(first).map(|&x| (x, all[second]))
}

/// First all pairs of specials, then borders and ordinary numbers.
pub fn soft(index: usize, random: &mut Random) -> Made {
    if let Some((x, threshold)) = special_pair(index) {
        return Made {
            case: Leaf::Soft { x, threshold },
            special: true,
        };
    }
    let special = random.chance(SPECIAL_SHARE);
    let only_special = special && random.chance(ONLY_SPECIAL);
    let threshold = draw(random, only_special);
    let x = if special {
        random.at_border(threshold)
    } else {
        random.ordinary()
    };
    Made {
        case: Leaf::Soft { x, threshold },
        special,
    }
}

/// Numbers at the ends of the ratio's range, and one ulp outside it.
fn border_ratio(random: &mut Random) -> f64 {
    let tiny = f64::from_bits(1);
    let below_one = 1.0f64.next_down();
    let above_one = 1.0f64.next_up();
    random.pick(&[0.0, -0.0, 1.0, tiny, -tiny, below_one, above_one, 0.5])
}

/// The number, moved into the range of alpha where it lies outside.
fn alpha_in_range(x: f64) -> f64 {
    match x {
        x if !x.is_finite() => 1.0,
        x if x >= 0.0 => x,
        x => -x,
    }
}

fn ratio_in_range(x: f64) -> f64 {
    match x {
        x if !x.is_finite() => 0.5,
        x if (0.0..=1.0).contains(&x) => x,
        x => x.abs().fract(),
    }
}

fn gamma_in_range(x: f64) -> f64 {
    match x {
        x if !x.is_finite() || x == 0.0 => 2.0,
        x => x.abs(),
    }
}

fn share_in_range(public: bool) -> usize {
    if public {
        PUBLIC_IN_RANGE
    } else {
        INNER_IN_RANGE
    }
}

/// A penalty; `in_range` of a hundred have their numbers in range.
fn penalty(random: &mut Random, special: bool, in_range: usize) -> Penalty {
    let kind = random.pick(&[Kind::L1, Kind::L1PlusL2, Kind::Mcp]);
    let mut alpha = draw(random, special);
    let mut second = match kind {
        Kind::L1PlusL2 if special && random.chance(75) => border_ratio(random),
        Kind::L1PlusL2 if random.chance(50) => random.fraction(),
        _ => draw(random, special),
    };
    if random.chance(in_range) {
        alpha = alpha_in_range(alpha);
        second = match kind {
            Kind::L1 => second,
            Kind::L1PlusL2 => ratio_in_range(second),
            Kind::Mcp => gamma_in_range(second),
        };
    }
    Penalty {
        kind,
        alpha,
        second,
    }
}

/// A size at which the prox changes its formula.
fn prox_border(penalty: &Penalty, step: f64, random: &mut Random) -> f64 {
    let tau = penalty.alpha * step;
    match penalty.kind {
        Kind::L1 => tau,
        Kind::L1PlusL2 => penalty.second * penalty.alpha * step,
        Kind::Mcp if random.chance(50) => tau,
        Kind::Mcp => penalty.second / step * tau,
    }
}

/// Mostly positive, as the inverse of a Lipschitz constant is.
fn step(random: &mut Random, special: bool) -> f64 {
    let step = draw(random, special);
    if random.chance(80) {
        step.abs()
    } else {
        step
    }
}

pub fn prox(random: &mut Random) -> Made {
    let special = random.chance(SPECIAL_SHARE);
    let only_special = special && random.chance(ONLY_SPECIAL);
    let penalty = penalty(random, only_special, share_in_range(false));
    let step = step(random, only_special);
    let border = prox_border(&penalty, step, random);
    let value = match random.below(10) {
        // Between 0 and twice the border: the middle formula of MCP.
        0..=3 if !special => border * 2.0 * random.fraction(),
        0..=5 if special => random.at_border(border),
        _ => draw(random, special),
    };
    Made {
        case: Leaf::Prox {
            penalty,
            value,
            step,
        },
        special,
    }
}

/// The gradient at which the violation of this weight is about zero.
fn balancing_gradient(penalty: &Penalty, weight: f64) -> f64 {
    let Penalty {
        kind,
        alpha,
        second,
    } = *penalty;
    let sign = weight.signum();
    match kind {
        Kind::L1 => -sign * alpha,
        Kind::L1PlusL2 => -alpha * (sign * second + (1.0 - second) * weight),
        Kind::Mcp => weight / second - alpha * sign,
    }
}

/// The size of gradient that a zero weight just bears.
fn gradient_border(penalty: &Penalty) -> f64 {
    match penalty.kind {
        Kind::L1PlusL2 => penalty.alpha * penalty.second,
        _ => penalty.alpha,
    }
}

/// The size of weight from which MCP is flat; the other penalties have none.
fn weight_border(penalty: &Penalty, random: &mut Random) -> f64 {
    match penalty.kind {
        Kind::Mcp => random.at_border(penalty.alpha * penalty.second),
        _ => random.special(),
    }
}

fn violation_gradient(penalty: &Penalty, weight: f64, special: bool, random: &mut Random) -> f64 {
    match random.below(10) {
        0..=3 if special => random.at_border(gradient_border(penalty)),
        4..=6 if special => random.near(balancing_gradient(penalty, weight)),
        _ => draw(random, special),
    }
}

pub fn violation(public: bool, random: &mut Random) -> Made {
    let special = random.chance(SPECIAL_SHARE);
    let only_special = special && random.chance(ONLY_SPECIAL);
    let penalty = penalty(random, only_special, share_in_range(public));
    let weight = match random.below(10) {
        0..=2 => random.signed(0.0),
        3..=6 if special => weight_border(&penalty, random),
        _ => draw(random, special),
    };
    let gradient = violation_gradient(&penalty, weight, special, random);
    Made {
        case: Leaf::Violation {
            public,
            penalty,
            weight,
            gradient,
        },
        special,
    }
}

/// Mostly up to 12 weights, now and then up to 64; the public call is also
/// asked for none.
fn weight_count(public: bool, random: &mut Random) -> usize {
    match random.below(100) {
        0..=3 if public => 0,
        4..=20 => 1,
        21..=37 => 2,
        38..=39 => 13 + random.below(52),
        _ => 1 + random.below(12),
    }
}

/// Special cases mix everything; ordinary ones keep to numbers of one make, so
/// that sums of many rounded terms come up and not only sums of one huge one.
fn weights(penalty: &Penalty, special: bool, count: usize, random: &mut Random) -> Vec<f64> {
    let make = random.below(10);
    let mut weight = || match random.below(10) {
        0..=1 if special => random.special(),
        2..=4 if special => weight_border(penalty, random),
        _ => match make {
            0..=5 => random.moderate(),
            6..=7 => random.quarter(),
            _ => random.any_bits(),
        },
    };
    (0..count).map(|_| weight()).collect()
}

pub fn value(public: bool, random: &mut Random) -> Made {
    let special = random.chance(SPECIAL_SHARE);
    let only_special = special && random.chance(ONLY_SPECIAL);
    let penalty = penalty(random, only_special, share_in_range(public));
    let count = weight_count(public, random);
    let weights = weights(&penalty, special, count, random);
    Made {
        case: Leaf::Value {
            public,
            penalty,
            weights,
        },
        special,
    }
}
