//! The leaves: soft threshold, penalties and elimination. This file holds
//! their cases as records have them; `answers` holds the port's rules.

mod answers;
mod cases;
mod list;
mod systems;

pub use list::LIST;

use crate::words::{counted, doubles, Reader, Word};

#[derive(Clone, Copy, Debug, PartialEq)]
pub enum Kind {
    L1,
    L1PlusL2,
    Mcp,
}

/// A penalty with its numbers, in or out of their ranges. `second` is the
/// ratio or gamma; for L1 it is carried along and never looked at.
#[derive(Clone, Debug)]
pub struct Penalty {
    pub kind: Kind,
    pub alpha: f64,
    pub second: f64,
}

/// A case; the inner calls take any doubles, the public ones may refuse.
#[derive(Clone, Debug)]
pub enum Leaf {
    Soft {
        x: f64,
        threshold: f64,
    },
    Prox {
        penalty: Penalty,
        value: f64,
        step: f64,
    },
    Violation {
        public: bool,
        penalty: Penalty,
        weight: f64,
        gradient: f64,
    },
    Value {
        public: bool,
        penalty: Penalty,
        weights: Vec<f64>,
    },
    Solve {
        size: u32,
        /// size + 1 numbers a row; none where the size is outside 1 to 10.
        rows: Vec<f64>,
    },
}

/// Sizes that elimination takes.
pub const SIZES: std::ops::RangeInclusive<u32> = 1..=10;

impl Penalty {
    pub fn words(&self) -> Vec<Word> {
        vec![
            Word::Count(self.kind as u32),
            Word::Double(self.alpha),
            Word::Double(self.second),
        ]
    }

    pub fn read(reader: &mut Reader) -> Result<Penalty, String> {
        let kind = match reader.count()? {
            0 => Kind::L1,
            1 => Kind::L1PlusL2,
            2 => Kind::Mcp,
            other => return Err(format!("kind {other:x} is unknown")),
        };
        Ok(Penalty {
            kind,
            alpha: reader.double()?,
            second: reader.double()?,
        })
    }
}

impl Leaf {
    fn record_code(&self) -> u32 {
        match self {
            Leaf::Soft { .. } => 1,
            Leaf::Prox { .. } => 2,
            Leaf::Violation { public: true, .. } => 3,
            Leaf::Value { public: true, .. } => 4,
            Leaf::Solve { .. } => 5,
            Leaf::Violation { .. } => 6,
            Leaf::Value { .. } => 7,
        }
    }

    fn input_words(&self) -> Vec<Word> {
        match self {
            Leaf::Soft { x, threshold } => doubles(&[*x, *threshold]),
            Leaf::Prox {
                penalty,
                value,
                step,
            } => [penalty.words(), doubles(&[*value, *step])].concat(),
            Leaf::Violation {
                penalty,
                weight,
                gradient,
                ..
            } => [penalty.words(), doubles(&[*weight, *gradient])].concat(),
            Leaf::Value {
                penalty, weights, ..
            } => [penalty.words(), counted(weights)].concat(),
            Leaf::Solve { size, rows } => [vec![Word::Count(*size)], doubles(rows)].concat(),
        }
    }

    pub fn read(code: u32, reader: &mut Reader) -> Result<Leaf, String> {
        match code {
            1 => Ok(Leaf::Soft {
                x: reader.double()?,
                threshold: reader.double()?,
            }),
            2 => Ok(Leaf::Prox {
                penalty: Penalty::read(reader)?,
                value: reader.double()?,
                step: reader.double()?,
            }),
            3 | 6 => Ok(Leaf::Violation {
                public: code == 3,
                penalty: Penalty::read(reader)?,
                weight: reader.double()?,
                gradient: reader.double()?,
            }),
            4 | 7 => Leaf::read_value(code == 4, reader),
            5 => Leaf::read_system(reader),
            _ => Err(format!("code {code:x} is not a leaf's")),
        }
    }

    fn read_value(public: bool, reader: &mut Reader) -> Result<Leaf, String> {
        let penalty = Penalty::read(reader)?;
        let count = reader.count()?;
        if count == 0 && !public {
            return Err("the inner value wants at least one weight".into());
        }
        Ok(Leaf::Value {
            public,
            penalty,
            weights: reader.doubles(count)?,
        })
    }

    fn read_system(reader: &mut Reader) -> Result<Leaf, String> {
        let size = reader.count()?;
        let count = if SIZES.contains(&size) {
            size * (size + 1)
        } else {
            0
        };
        Ok(Leaf::Solve {
            size,
            rows: reader.doubles(count)?,
        })
    }
}
