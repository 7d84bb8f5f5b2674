//! Ten alphas on one tile: prepared once and solved ten times, against the fast Rust that fits ten times, against the same prepared once, and against
//! ten pairs of our calls.

use crate::cases::{csc, dense, line, Case, Ending};
use crate::timing::{best_of, Row};
use crate::{fast, longer, Zeros};
use std::cell::RefCell;

/// Shares of the least alpha with an all-zero answer, falling by about a fifth each.
const SHARES: [f64; 10] = [0.5, 0.4, 0.32, 0.25, 0.2, 0.16, 0.125, 0.1, 0.08, 0.064];
const TURNS: usize = 5;

/// One tile with its alphas; nothing else differs between the fits.
pub struct Tile {
    case: RefCell<Case>,
    pub alphas: Vec<f64>,
}

impl Tile {
    /// Of a problem whose alpha is the least with an all-zero answer.
    pub fn of(case: Case, shares: impl IntoIterator<Item = f64>) -> Tile {
        let alphas = shares.into_iter().map(|share| share * case.settings.alpha).collect();
        Tile { case: RefCell::new(case), alphas }
    }

    /// Once, whatever the alpha.
    pub fn once<T>(&self, ask: impl FnOnce(&Case) -> T) -> T {
        ask(&self.case.borrow())
    }

    /// Once for each alpha.
    pub fn fitted(&self, mut fit: impl FnMut(&Case) -> Ending) -> Vec<Ending> {
        let mut case = self.case.borrow_mut();
        let with = |&alpha: &f64| {
            case.settings.alpha = alpha;
            fit(&case)
        };
        self.alphas.iter().map(with).collect()
    }

    /// By our calls, prepared once.
    pub fn ours(&self, zeros: &mut Zeros) -> Vec<Ending> {
        self.once(|case| zeros.prepare(case));
        self.fitted(|case| zeros.solve(case))
    }

    /// By the fast Rust, prepared once.
    pub fn quick(&self) -> Vec<Ending> {
        let numbers = self.once(fast::prepare);
        self.fitted(|case| fast::solve(case, &numbers))
    }
}

pub fn lines(name: &str, endings: &[Ending]) -> Vec<String> {
    endings.iter().map(|ending| line(name, ending)).collect()
}

fn row(name: &str, tile: &Tile) -> Row {
    let [mut once, mut pairs] = [(); 2].map(|()| tile.once(Zeros::of));
    let [mut a, mut b, mut c, mut d] = [(); 4].map(|()| vec![]);
    let [ours, single, prepared, paired] = best_of(
        TURNS,
        [
            &mut || a = tile.ours(&mut once),
            &mut || b = tile.fitted(fast::fit),
            &mut || c = tile.quick(),
            &mut || d = tile.fitted(|case| pairs.pair(case)),
        ],
    );
    let found = lines(name, &a);
    assert!([b, c, d].iter().all(|others| lines(name, others) == found), "the fits differ");
    found.iter().for_each(|line| eprintln!("{line}"));
    Row { name: name.into(), ours, others: vec![Some(single), Some(prepared), Some(paired)] }
}

/// A tile is made when its turn comes.
pub fn rows() -> impl Iterator<Item = Row> {
    let tiles: [(&str, fn() -> Case); 4] = [
        ("wide 200 x 8,192", || dense(200, 8_192, 0.0, 1.0)),
        ("wide CSC 2,000 x 8,192, 1 %", || csc(2_000, 8_192, 20, 0.5, 1.0)),
        ("tall 65,536 x 256", || dense(65_536, 256, 0.0, 1.0)),
        ("tall CSC 65,536 x 256, 1 %", || csc(65_536, 256, 655, 0.5, 1.0)),
    ];
    tiles.into_iter().map(|(name, make)| row(name, &Tile::of(longer(make()), SHARES)))
}
