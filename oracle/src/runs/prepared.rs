//! The numbers that a preparation leaves and a solve is handed.

/// The constants, then X'y: one of each for every feature.
#[derive(Clone, Debug, PartialEq)]
pub struct Prepared {
    pub constants: Vec<f64>,
    pub products: Vec<f64>,
}

/// One half of them.
#[derive(Clone, Copy, Debug, PartialEq)]
pub enum Half {
    Constants,
    Products,
}

/// Where the constants and X'y of a run come from.
#[derive(Clone, Copy)]
pub enum Numbers<'a> {
    /// The Rust's datafit computes them.
    Own,
    Handed(&'a Prepared),
}

impl From<(Vec<f64>, Vec<f64>)> for Prepared {
    fn from((constants, products): (Vec<f64>, Vec<f64>)) -> Prepared {
        Prepared {
            constants,
            products,
        }
    }
}

impl Prepared {
    /// Of a lent buffer that has room for them; what lies beyond isn't read.
    pub fn read(buffer: &[f64], features: usize) -> Prepared {
        Prepared {
            constants: buffer[..features].to_vec(),
            products: buffer[features..2 * features].to_vec(),
        }
    }

    pub fn half(&mut self, half: Half) -> &mut [f64] {
        match half {
            Half::Constants => &mut self.constants,
            Half::Products => &mut self.products,
        }
    }

    /// As they stand in a lent buffer.
    pub fn numbers(&self) -> Vec<f64> {
        [&self.constants[..], &self.products].concat()
    }
}
