//! Stand-in for the one trait of `approx` that the published files name.
//! Only their test helpers call it; the oracle never does.

pub trait AbsDiffEq {
    type Epsilon;

    fn abs_diff_eq(&self, other: &Self, epsilon: Self::Epsilon) -> bool;

    fn abs_diff_ne(&self, other: &Self, epsilon: Self::Epsilon) -> bool {
        !self.abs_diff_eq(other, epsilon)
    }
}

macro_rules! abs_diff_eq {
    ($($float:ty)*) => {$(
        impl AbsDiffEq for $float {
            type Epsilon = $float;

            fn abs_diff_eq(&self, other: &Self, epsilon: $float) -> bool {
                self == other || (self - other).abs() <= epsilon
            }
        }
    )*};
}

abs_diff_eq!(f32 f64);
