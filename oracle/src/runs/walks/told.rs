//! What the header of a list of walks says of them.

use super::answers::has_negative_zero;
use super::faults::SETTINGS;
use super::made::Made;
use super::rules::LIST;
use crate::designs::Layout;
use crate::leaves::Kind;
use crate::runs::rules::DEPTHS;
use crate::runs::{FitCase, Outcome};
use std::ops::RangeInclusive;

fn count(made: &[Made], wanted: impl Fn(&Made) -> bool) -> usize {
    made.iter().filter(|made| wanted(made)).count()
}

fn positions(made: &[Made]) -> Vec<String> {
    let at = |wanted: fn(usize, usize) -> bool| {
        count(made, |made| {
            let last = made.case.alphas.len().saturating_sub(1);
            made.position().is_some_and(|at| wanted(at, last))
        })
    };
    vec![format!(
        "usable is the first of several alphas in {}, a middle one in {}, the last in {}, \
         the only one in {}",
        at(|at, last| at == 0 && last > 0),
        at(|at, last| 0 < at && at < last),
        at(|at, last| 0 < at && at == last),
        at(|_, last| last == 0),
    )]
}

fn is_seven(outcome: &Outcome) -> bool {
    matches!(outcome, Outcome::NotFinite(_))
}

fn passed_over(made: &[Made]) -> Vec<String> {
    let met = |made: &Made, outcome: &Outcome| made.weights_if_met(outcome).is_some();
    let spent = |made: &Made, outcome: &Outcome| !is_seven(outcome) && !met(made, outcome);
    let behind = format!(
        "before the usable one a fit gave 7 in {}, had status 2 in {}, too many weights in {}",
        count(made, |made| made.found_behind(is_seven)),
        count(made, |made| made.found_behind(|fit| spent(made, fit))),
        count(made, |made| made.found_behind(|fit| met(made, fit))),
    );
    let seven = |made: &Made| made.passed().iter().any(is_seven);
    let nowhere = format!(
        "none is in {}; in {} of them the preparation gave 7, in {} the fit with one of the alphas",
        count(made, Made::none_usable),
        count(made, Made::unprepared),
        count(made, |made| {
            made.none_usable() && !made.unprepared() && seven(made)
        }),
    );
    vec![behind, nowhere]
}

fn weights(made: &[Made]) -> Vec<String> {
    let usable = |made: &Made| made.usable().is_some();
    let negative = |made: &Made| made.usable().is_some_and(has_negative_zero);
    let zero = |made: &Made| made.case.most == 0;
    vec![
        format!(
            "m is 0 and an alpha usable in {}, 0 and none in {}, 2^32 or more in {}",
            count(made, |made| zero(made) && usable(made)),
            count(made, |made| zero(made) && made.none_usable()),
            count(made, |made| made.walks() && made.case.most >= 1 << 32),
        ),
        format!(
            "m is the number of the usable fit's nonzero weights in {}, above 0 in {} of them",
            count(made, Made::exactly_as_many),
            count(made, |made| made.exactly_as_many() && !zero(made)),
        ),
        format!(
            "m is one less than what a fit with status 1 has in {}, above 0 in {} of them",
            count(made, Made::one_too_many),
            count(made, |made| made.one_too_many() && !zero(made)),
        ),
        format!(
            "the usable fit has a weight of -0.0 in {}, m being the number of the nonzero ones \
             in {}",
            count(made, negative),
            count(made, |made| made.exactly_as_many() && negative(made)),
        ),
    ]
}

fn lengths(made: &[Made]) -> Vec<String> {
    let of = |lengths: RangeInclusive<usize>| {
        count(made, |made| lengths.contains(&made.case.alphas.len()))
    };
    let ends = |zero: f64| {
        let bits = |alpha: &f64| alpha.to_bits() == zero.to_bits();
        count(made, |made| {
            made.walks() && made.case.alphas.last().is_some_and(bits)
        })
    };
    vec![
        format!(
            "alphas: none in {}, 1 in {}, 2 in {}, 3 to 8 in {}, 9 to 63 in {}, 64 in {}, \
             65 in {}, more in {}",
            of(0..=0),
            of(1..=1),
            of(2..=2),
            of(3..=8),
            of(9..=63),
            of(64..=64),
            of(65..=65),
            of(66..=usize::MAX),
        ),
        format!(
            "the last is 0.0 in {} of those not refused with 1 to 6, -0.0 in {}",
            ends(0.0),
            ends(-0.0),
        ),
    ]
}

/// How often an entry, or two neighbours, are such in a list that is refused for nothing
/// else: the first, one in the middle and the last.
fn in_bad_lists(made: &[Made], name: &str, width: usize, bad: fn(&[f64]) -> bool) -> String {
    let mut counts = [0; 3];
    for made in made.iter().filter(|made| made.list_alone()) {
        let entries: Vec<&[f64]> = made.case.alphas.windows(width).collect();
        for at in (0..entries.len()).filter(|&at| bad(entries[at])) {
            let place = match at {
                0 => 0,
                _ if at + 1 == entries.len() => 2,
                _ => 1,
            };
            counts[place] += 1;
        }
    }
    let [first, middle, last] = counts;
    format!("{name} {first}, {middle}, {last}")
}

fn bad_lists(made: &[Made]) -> Vec<String> {
    let told = |name, width, bad| in_bad_lists(made, name, width, bad);
    let entries = [
        told("NaN", 1, |x| x[0].is_nan()),
        told("infinite", 1, |x| x[0].is_infinite()),
        told("negative", 1, |x| x[0].is_finite() && x[0] < 0.0),
    ];
    let neighbours = [
        told("equal", 2, |x| x[0] == x[1]),
        told("rising", 2, |x| x[0] < x[1]),
        told("0.0 and -0.0", 2, |x| {
            x == [0.0, 0.0] && x[0].is_sign_positive() && x[1].is_sign_negative()
        }),
    ];
    vec![
        "in lists that alone are refused, by the first, one in the middle and the last:".into(),
        format!("  entries: {}", entries.join("; ")),
        format!("  neighbours: {}", neighbours.join("; ")),
    ]
}

fn own_alphas(made: &[Made]) -> Vec<String> {
    let with = |wanted: fn(f64) -> bool| {
        count(made, |made| {
            made.usable().is_some() && wanted(made.fit().settings.penalty.alpha)
        })
    };
    vec![format!(
        "the settings' alpha where one is usable: NaN in {}, infinite in {}, negative in {}",
        with(f64::is_nan),
        with(f64::is_infinite),
        with(|alpha| alpha.is_finite() && alpha < 0.0),
    )]
}

fn orders(made: &[Made]) -> Vec<String> {
    let settings = SETTINGS.map(|place| {
        let beside = |made: &Made| made.refusal == Some((2, place)) && made.case.list_is_wrong();
        format!("{} at {place}", count(made, beside))
    });
    let list = |wanted: &dyn Fn(&Made) -> bool| {
        count(made, |made| made.refusal == Some((2, LIST)) && wanted(made))
    };
    let sizes = |made: &Made| made.refusal == Some((1, 0)) && made.case.list_is_wrong();
    vec![
        format!(
            "a wrong list beside wrong sizes in {}, beside a wrong setting in {}",
            count(made, sizes),
            settings.join(", "),
        ),
        format!(
            "and beside too little room in {}, beside what 4, 5 and 6 are about in {}, {} and {}",
            list(&|made| made.case.room_lacks()),
            list(&|made| made.content() == Some(4)),
            list(&|made| made.content() == Some(5)),
            list(&|made| made.content() == Some(6)),
        ),
    ]
}

fn buffers(made: &[Made]) -> Vec<String> {
    let names = ["weights", "fit", "indices", "scratch", "prepared"];
    let told = |wanted: &dyn Fn(&Made, usize) -> bool| {
        let all = names.iter().enumerate();
        let counts =
            all.map(|(at, name)| format!("{name} {}", count(made, |made| wanted(made, at))));
        counts.collect::<Vec<_>>().join(", ")
    };
    let lacks = |made: &Made, at: usize| made.refusal == Some((3, 0)) && made.spare()[at] == -1;
    let spares = |made: &Made, at: usize| made.walks() && made.spare()[at] > 0;
    vec![
        format!("refused with 3 for one place: {}", told(&lacks)),
        format!("longer than the room in walks: {}", told(&spares)),
    ]
}

fn kinds(made: &[Made]) -> Vec<String> {
    let walks =
        |wanted: &dyn Fn(&FitCase) -> bool| count(made, |made| made.walks() && wanted(made.fit()));
    let kind = |kind: Kind| walks(&|fit| fit.settings.penalty.kind == kind);
    let depths = DEPTHS.map(|depth| {
        let with = walks(&|fit| fit.settings.extrapolate && fit.settings.depth == depth);
        format!("{with} of {depth}")
    });
    vec![
        format!(
            "of those not refused with 1 to 6 {} are dense, {} CSC; {} are L1, {} L1PlusL2, {} MCP",
            walks(&|fit| fit.design.layout == Layout::Dense),
            walks(&|fit| fit.design.layout == Layout::Csc),
            kind(Kind::L1),
            kind(Kind::L1PlusL2),
            kind(Kind::Mcp),
        ),
        format!(
            "extrapolation is off in {} of them, on in {}; {} usable fits accepted one",
            walks(&|fit| !fit.settings.extrapolate),
            walks(&|fit| fit.settings.extrapolate),
            count(made, |made| {
                made.usable()
                    .is_some_and(|report| report.extrapolations > 0)
            }),
        ),
        format!("K: {}", depths.collect::<Vec<_>>().join(", ")),
    ]
}

/// What the header says of them.
pub fn details(made: &[Made]) -> Vec<String> {
    [
        positions(made),
        passed_over(made),
        weights(made),
        lengths(made),
        bad_lists(made),
        own_alphas(made),
        orders(made),
        buffers(made),
        kinds(made),
    ]
    .concat()
}
