//! Stand-in for the names of `rand` in the published test helpers. The oracle
//! never calls these helpers, so the generator holds nothing.

pub trait SeedableRng {
    fn seed_from_u64(seed: u64) -> Self;
}

pub mod rngs {
    pub struct StdRng;

    impl super::SeedableRng for StdRng {
        fn seed_from_u64(_seed: u64) -> Self {
            StdRng
        }
    }
}
