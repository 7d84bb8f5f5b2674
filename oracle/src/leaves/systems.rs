//! Made systems for the elimination.

use super::cases::Made;
use super::{Leaf, SIZES};
use crate::random::Random;

/// Sizes that are refused.
const OUTSIDE: [u32; 4] = [0, 11, 12, u32::MAX];

/// Small systems come oftener: the records of large ones are long.
const DRAWN: [usize; 19] = [1, 2, 2, 2, 3, 3, 3, 4, 4, 4, 5, 5, 6, 6, 7, 7, 8, 9, 10];

#[derive(Clone, Copy, Debug)]
enum Make {
    Moderate,
    AnyBits,
    Triangular,
    SmallIntegers,
    /// What the extrapolation makes: columns times columns, ones on the right.
    Gram,
    /// The same with rows that shrink, as iterates that settle have them.
    ShrinkingGram,
    ZeroRow,
    EqualRows,
    /// Two rows equal but for one ulp in one place.
    NearlyEqualRows,
    ZeroPivot,
    /// Ones from corner to corner, the other way: invertible, yet called
    /// singular from size 2 on.
    Reversed,
    SpecialEntries,
}

const MAKES: [Make; 12] = [
    Make::Moderate,
    Make::AnyBits,
    Make::Triangular,
    Make::SmallIntegers,
    Make::Gram,
    Make::ShrinkingGram,
    Make::ZeroRow,
    Make::EqualRows,
    Make::NearlyEqualRows,
    Make::ZeroPivot,
    Make::Reversed,
    Make::SpecialEntries,
];

impl Make {
    fn special(self) -> bool {
        !matches!(
            self,
            Make::Moderate
                | Make::AnyBits
                | Make::Triangular
                | Make::SmallIntegers
                | Make::Gram
                | Make::ShrinkingGram
        )
    }
}

/// Rows of size + 1 numbers, the right-hand side last.
type Rows = Vec<Vec<f64>>;

fn filled(size: usize, mut entry: impl FnMut(usize, usize) -> f64) -> Rows {
    let row = |i| (0..=size).map(|j| entry(i, j)).collect();
    (0..size).map(row).collect()
}

fn moderate(size: usize, random: &mut Random) -> Rows {
    filled(size, |_, _| random.moderate())
}

fn small_integers(size: usize, random: &mut Random) -> Rows {
    filled(size, |_, _| random.below(5) as f64 - 2.0)
}

/// Moderate or of small integers, so that later zeros are rounded or exact.
fn plain(size: usize, random: &mut Random) -> Rows {
    if random.chance(50) {
        moderate(size, random)
    } else {
        small_integers(size, random)
    }
}

fn triangular(size: usize, random: &mut Random) -> Rows {
    let upper = random.chance(50);
    filled(size, |i, j| match (i, j) {
        (i, j) if j < size && i != j && (j > i) != upper => 0.0,
        _ => random.moderate(),
    })
}

fn gram(size: usize, shrinking: bool, random: &mut Random) -> Rows {
    let mut vectors = moderate(size, random);
    if shrinking {
        for (k, vector) in vectors.iter_mut().enumerate() {
            vector.iter_mut().for_each(|x| *x *= 0.25f64.powi(k as i32));
        }
    }
    filled(size, |i, j| match j {
        j if j == size => 1.0,
        j => vectors.iter().map(|row| row[i] * row[j]).sum(),
    })
}

/// Some row is a copy of another, or in size 1 stays as it is.
fn equal_rows(size: usize, random: &mut Random) -> (Rows, usize) {
    let mut rows = plain(size, random);
    let (from, to) = (random.below(size), random.below(size));
    rows[to] = rows[from].clone();
    (rows, to)
}

fn nearly_equal_rows(size: usize, random: &mut Random) -> Rows {
    let (mut rows, changed) = equal_rows(size, random);
    let place = random.below(size);
    let entry = rows[changed][place];
    rows[changed][place] = if random.chance(50) {
        entry.next_up()
    } else {
        entry.next_down()
    };
    rows
}

fn with_zeros(mut rows: Rows, chosen: impl Fn(usize, usize) -> bool, random: &mut Random) -> Rows {
    for (i, row) in rows.iter_mut().enumerate() {
        for (j, entry) in row.iter_mut().enumerate() {
            if chosen(i, j) {
                *entry = random.signed(0.0);
            }
        }
    }
    rows
}

fn zero_row(size: usize, random: &mut Random) -> Rows {
    let (rows, zero) = (plain(size, random), random.below(size));
    let whole = random.chance(50);
    with_zeros(rows, |i, j| i == zero && (whole || j < size), random)
}

fn zero_pivot(size: usize, random: &mut Random) -> Rows {
    let (rows, zero) = (plain(size, random), random.below(size));
    with_zeros(rows, |i, j| i == zero && j == zero, random)
}

fn reversed(size: usize, random: &mut Random) -> Rows {
    let scaled = random.chance(50);
    filled(size, |i, j| match j {
        j if j == size => random.moderate(),
        j if i + j + 1 != size => 0.0,
        _ if scaled => random.moderate(),
        _ => 1.0,
    })
}

fn special_entries(size: usize, random: &mut Random) -> Rows {
    let mut rows = plain(size, random);
    for _ in 0..=random.below(size + 1) {
        let (i, j) = (random.below(size), random.below(size + 1));
        rows[i][j] = random.special();
    }
    rows
}

fn rows(make: Make, size: usize, random: &mut Random) -> Rows {
    match make {
        Make::Moderate => moderate(size, random),
        Make::AnyBits => filled(size, |_, _| random.any_bits()),
        Make::Triangular => triangular(size, random),
        Make::SmallIntegers => small_integers(size, random),
        Make::Gram => gram(size, false, random),
        Make::ShrinkingGram => gram(size, true, random),
        Make::ZeroRow => zero_row(size, random),
        Make::EqualRows => equal_rows(size, random).0,
        Make::NearlyEqualRows => nearly_equal_rows(size, random),
        Make::ZeroPivot => zero_pivot(size, random),
        Make::Reversed => reversed(size, random),
        Make::SpecialEntries => special_entries(size, random),
    }
}

/// First the refused sizes, then every make in every size, then any.
pub fn system(index: usize, random: &mut Random) -> Made {
    if let Some(&size) = OUTSIDE.get(index) {
        let rows = Vec::new();
        return Made {
            case: Leaf::Solve { size, rows },
            special: true,
        };
    }
    let index = index - OUTSIDE.len();
    let largest = *SIZES.end() as usize;
    let (make, size) = if index < MAKES.len() * largest {
        (MAKES[index / largest], 1 + index % largest)
    } else {
        (random.pick(&MAKES), random.pick(&DRAWN))
    };
    let rows = rows(make, size, random).concat();
    Made {
        case: Leaf::Solve {
            size: size as u32,
            rows,
        },
        special: make.special(),
    }
}
