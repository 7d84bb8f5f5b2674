//! The number type of the loops variant: a double whose `Sum` starts at +0.0
//! and whose `powi(2)` is x·x. Everything else is the double's own.

use num_traits::{AsPrimitive, FromPrimitive, MulAdd, NumCast, One, Signed, ToPrimitive, Zero};
use std::fmt;
use std::iter::Sum;
use std::ops::{Add, AddAssign, Div, DivAssign, Mul, MulAssign, Neg, Rem, RemAssign};
use std::ops::{Sub, SubAssign};

#[derive(Clone, Copy, Default, PartialEq, PartialOrd)]
pub struct Loops(f64);

impl From<f64> for Loops {
    fn from(x: f64) -> Loops {
        Loops(x)
    }
}

impl From<Loops> for f64 {
    fn from(x: Loops) -> f64 {
        x.0
    }
}

impl Sum for Loops {
    fn sum<I: Iterator<Item = Loops>>(terms: I) -> Loops {
        let mut sum = 0.0;
        for term in terms {
            sum += term.0;
        }
        Loops(sum)
    }
}

impl fmt::Display for Loops {
    fn fmt(&self, out: &mut fmt::Formatter<'_>) -> fmt::Result {
        fmt::Display::fmt(&self.0, out)
    }
}

impl fmt::Debug for Loops {
    fn fmt(&self, out: &mut fmt::Formatter<'_>) -> fmt::Result {
        fmt::Debug::fmt(&self.0, out)
    }
}

impl Neg for Loops {
    type Output = Loops;

    fn neg(self) -> Loops {
        Loops(-self.0)
    }
}

/// The three forms of one operation that the `Float` trait asks for.
macro_rules! operations {
    ($($operator:ident $method:ident $assign:ident $assign_method:ident;)*) => {$(
        impl $operator for Loops {
            type Output = Loops;

            fn $method(self, other: Loops) -> Loops {
                Loops(self.0.$method(other.0))
            }
        }

        impl $assign for Loops {
            fn $assign_method(&mut self, other: Loops) {
                *self = (*self).$method(other);
            }
        }

        impl $assign<&Loops> for Loops {
            fn $assign_method(&mut self, other: &Loops) {
                *self = (*self).$method(*other);
            }
        }
    )*};
}

operations! {
    Add add AddAssign add_assign;
    Sub sub SubAssign sub_assign;
    Mul mul MulAssign mul_assign;
    Div div DivAssign div_assign;
    Rem rem RemAssign rem_assign;
}

impl Zero for Loops {
    fn zero() -> Loops {
        Loops(0.0)
    }
}

impl One for Loops {
    fn one() -> Loops {
        Loops(1.0)
    }
}

impl ToPrimitive for Loops {
    fn to_f64(&self) -> Option<f64> {
        Some(self.0)
    }
}

impl NumCast for Loops {
    fn from<T: ToPrimitive>(n: T) -> Option<Loops> {
        n.to_f64().map(Loops)
    }
}

impl FromPrimitive for Loops {
    fn from_f64(n: f64) -> Option<Loops> {
        Some(Loops(n))
    }
}

impl AsPrimitive<usize> for Loops {
    fn as_(self) -> usize {
        self.0 as usize
    }
}

impl Signed for Loops {
    fn abs(&self) -> Loops {
        Loops(self.0.abs())
    }

    fn signum(&self) -> Loops {
        Loops(self.0.signum())
    }
}

impl MulAdd for Loops {
    type Output = Loops;

    fn mul_add(self, a: Loops, b: Loops) -> Loops {
        Loops(self.0.mul_add(a.0, b.0))
    }
}

impl approx::AbsDiffEq for Loops {
    type Epsilon = Loops;

    fn abs_diff_eq(&self, other: &Loops, epsilon: Loops) -> bool {
        self.0.abs_diff_eq(&other.0, epsilon.0)
    }
}

impl ndarray::ScalarOperand for Loops {}

/// Methods of one argument that are the double's own.
macro_rules! own {
    ($($method:ident)*) => {$(
        fn $method(self) -> Loops {
            Loops(self.0.$method())
        }
    )*};
}

impl num_traits::Float for Loops {
    fn infinity() -> Loops {
        Loops(f64::INFINITY)
    }

    fn neg_infinity() -> Loops {
        Loops(f64::NEG_INFINITY)
    }

    own! { abs signum sqrt exp cos acos }

    fn max(self, other: Loops) -> Loops {
        Loops(self.0.max(other.0))
    }

    fn powi(self, n: i32) -> Loops {
        match n {
            2 => Loops(self.0 * self.0),
            _ => Loops(self.0.powi(n)),
        }
    }

    fn powf(self, n: Loops) -> Loops {
        Loops(self.0.powf(n.0))
    }

    fn log(self, base: Loops) -> Loops {
        Loops(self.0.log(base.0))
    }
}

impl sparseglm_loops::Float for Loops {
    type Lapack = Loops;
}
