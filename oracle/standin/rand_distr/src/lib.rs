//! Stand-in for the names of `rand_distr` in the published test helpers. The
//! oracle never calls these helpers; drawing a number stops the program, so
//! that an invented number can't pass for one of the real crate.

use rand::rngs::StdRng;

pub trait Distribution<T> {
    fn sample(&self, rng: &mut StdRng) -> T;
}

pub struct Normal;

impl Normal {
    pub fn new(_mean: f64, _deviation: f64) -> Result<Normal, &'static str> {
        Ok(Normal)
    }
}

impl Distribution<f64> for Normal {
    fn sample(&self, _rng: &mut StdRng) -> f64 {
        unimplemented!("the stand-in draws no random numbers")
    }
}
