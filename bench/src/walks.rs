//! A walk of twenty falling alphas, all of which are fitted: no fit before the last is usable. It is compared with twenty pairs of our calls, with one
//! preparation and twenty solves, and with the fast Rust prepared once.

use crate::alphas::{lines, Tile};
use crate::cases::{dense, line, refused_line, Ending, Settings};
use crate::timing::{best_of, Row};
use crate::{longer, Zeros};
use std::iter::successors;

const ALPHAS: usize = 20;
const TURNS: usize = 5;

struct Walk {
    name: &'static str,
    size: (u32, u32),
    change: fn(&mut Settings),
    /// The first alpha, as a share of the least one with an all-zero answer, and each over the one before it.
    shares: (f64, f64),
    most: usize,
    position: Option<usize>,
}

const LAST: Option<usize> = Some(ALPHAS - 1);

/// Below the least alpha with an all-zero answer some weight is not zero, so that with `most` 0 none is usable. The other walks allow any number of
/// weights, but so few working sets that each fit before the last ends with status 2.
const WALKS: [Walk; 4] = [
    Walk { name: "dense 1,000 x 2,000, none usable", size: (1_000, 2_000), change: |_| {}, shares: (0.5, 0.9), most: 0, position: None },
    Walk {
        name: "dense 1,000 x 2,000, one working set of 20, the last usable", size: (1_000, 2_000), change: |s| (s.iterations, s.start) = (1, 20),
        shares: (0.435, 0.9957), most: 2_000, position: LAST,
    },
    Walk { name: "wide 200 x 8,192, none usable", size: (200, 8_192), change: |_| {}, shares: (0.5, 0.9), most: 0, position: None },
    Walk {
        name: "wide 200 x 8,192, two working sets, the last usable", size: (200, 8_192), change: |s| s.iterations = 2,
        shares: (0.312, 0.9914), most: 8_192, position: LAST,
    },
];

fn is_usable(ending: &Ending, most: usize) -> bool {
    matches!(ending, Ending::Fitted { status: 1, weights, .. } if weights.iter().filter(|&&x| x != 0.0).count() <= most)
}

fn row(walk: Walk) -> Row {
    let Walk { name, size: (n, p), change, shares: (first, factor), most, position } = walk;
    let shares = successors(Some(first), |share| Some(share * factor)).take(ALPHAS);
    let tile = Tile::of(longer(dense(n, p, 0.0, 1.0)).with(change), shares);
    let [mut walking, mut pairs, mut once] = [(); 3].map(|()| tile.once(Zeros::of));
    let mut walked = None;
    let [mut a, mut b, mut c] = [(); 3].map(|()| vec![]);
    let [ours, paired, solved, quick] = best_of(
        TURNS,
        [
            &mut || walked = Some(tile.once(|case| walking.walk(case, &tile.alphas, most))),
            &mut || a = tile.fitted(|case| pairs.pair(case)),
            &mut || b = tile.ours(&mut once),
            &mut || c = tile.quick(),
        ],
    );
    let found = lines(name, &a);
    found.iter().for_each(|line| eprintln!("{line}"));
    assert!([b, c].iter().all(|others| lines(name, others) == found), "the fits differ");
    assert_eq!(a.iter().position(|ending| is_usable(ending, most)), position, "{name}: another fit is the first that is usable");
    let (at, ending) = walked.expect("one turn at least");
    let expected = position.map_or(refused_line(name, 11, 0), |position| found[position].clone());
    assert_eq!((at, line(name, &ending)), (position, expected), "the walk differs");
    Row { name: name.into(), ours, others: vec![Some(paired), Some(solved), Some(quick)] }
}

/// A tile is made when its turn comes.
pub fn rows() -> impl Iterator<Item = Row> {
    WALKS.into_iter().map(row)
}
