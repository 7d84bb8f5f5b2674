//! Stand-in for the parts of `num_traits` that the published files use. The
//! traits have the names and the order of `num_traits`; methods that no
//! published file calls are left out.

use std::ops::{Add, AddAssign, Div, DivAssign, Mul, MulAssign, Neg, Rem, RemAssign};
use std::ops::{Sub, SubAssign};

pub trait Zero: Sized + Add<Self, Output = Self> {
    fn zero() -> Self;
}

pub trait One: Sized + Mul<Self, Output = Self> {
    fn one() -> Self;
}

pub trait NumOps<Rhs = Self, Output = Self>:
    Add<Rhs, Output = Output>
    + Sub<Rhs, Output = Output>
    + Mul<Rhs, Output = Output>
    + Div<Rhs, Output = Output>
    + Rem<Rhs, Output = Output>
{
}

impl<T, Rhs, Output> NumOps<Rhs, Output> for T where
    T: Add<Rhs, Output = Output>
        + Sub<Rhs, Output = Output>
        + Mul<Rhs, Output = Output>
        + Div<Rhs, Output = Output>
        + Rem<Rhs, Output = Output>
{
}

pub trait Num: PartialEq + Zero + One + NumOps {}

impl<T: PartialEq + Zero + One + NumOps> Num for T {}

pub trait NumAssignOps<Rhs = Self>:
    AddAssign<Rhs> + SubAssign<Rhs> + MulAssign<Rhs> + DivAssign<Rhs> + RemAssign<Rhs>
{
}

impl<T, Rhs> NumAssignOps<Rhs> for T where
    T: AddAssign<Rhs> + SubAssign<Rhs> + MulAssign<Rhs> + DivAssign<Rhs> + RemAssign<Rhs>
{
}

/// Everything cast in the published files becomes a float, so one way is enough.
pub trait ToPrimitive {
    fn to_f64(&self) -> Option<f64>;
}

pub trait NumCast: Sized + ToPrimitive {
    fn from<T: ToPrimitive>(n: T) -> Option<Self>;
}

pub trait FromPrimitive: Sized {
    fn from_f64(n: f64) -> Option<Self>;
}

pub trait AsPrimitive<T: 'static + Copy>: 'static + Copy {
    fn as_(self) -> T;
}

/// Takes its argument by reference, where `Float` takes it by value: the
/// published files hold both traits and the call decides which one is meant.
pub trait Signed: Num + Neg<Output = Self> {
    fn abs(&self) -> Self;
    fn signum(&self) -> Self;
}

pub trait MulAdd<A = Self, B = Self> {
    type Output;

    fn mul_add(self, a: A, b: B) -> Self::Output;
}

pub trait Float: Num + Copy + NumCast + PartialOrd + Neg<Output = Self> {
    fn infinity() -> Self;
    fn neg_infinity() -> Self;
    fn abs(self) -> Self;
    fn signum(self) -> Self;
    fn max(self, other: Self) -> Self;
    fn powi(self, n: i32) -> Self;
    fn powf(self, n: Self) -> Self;
    fn sqrt(self) -> Self;
    fn exp(self) -> Self;
    fn log(self, base: Self) -> Self;
    fn cos(self) -> Self;
    fn acos(self) -> Self;
}

macro_rules! casts {
    ($($number:ty)*) => {$(
        impl ToPrimitive for $number {
            fn to_f64(&self) -> Option<f64> {
                Some(*self as f64)
            }
        }

        impl NumCast for $number {
            fn from<T: ToPrimitive>(n: T) -> Option<Self> {
                n.to_f64().map(|x| x as $number)
            }
        }
    )*};
}

casts!(f32 f64 i32 usize);

/// Methods that hand over to the float's own method of the same name.
macro_rules! own {
    ($float:ident: $($name:ident($($argument:ident: $kind:ty),*))*) => {$(
        fn $name(self $(, $argument: $kind)*) -> Self {
            <$float>::$name(self $(, $argument)*)
        }
    )*};
}

macro_rules! floats {
    ($($float:ident)*) => {$(
        impl Zero for $float {
            fn zero() -> Self {
                0.0
            }
        }

        impl One for $float {
            fn one() -> Self {
                1.0
            }
        }

        impl FromPrimitive for $float {
            fn from_f64(n: f64) -> Option<Self> {
                Some(n as $float)
            }
        }

        impl AsPrimitive<usize> for $float {
            fn as_(self) -> usize {
                self as usize
            }
        }

        impl Signed for $float {
            fn abs(&self) -> Self {
                <$float>::abs(*self)
            }

            fn signum(&self) -> Self {
                <$float>::signum(*self)
            }
        }

        impl MulAdd for $float {
            type Output = $float;

            fn mul_add(self, a: Self, b: Self) -> Self {
                <$float>::mul_add(self, a, b)
            }
        }

        impl Float for $float {
            fn infinity() -> Self {
                <$float>::INFINITY
            }

            fn neg_infinity() -> Self {
                <$float>::NEG_INFINITY
            }

            own! {
                $float:
                abs()
                signum()
                max(other: Self)
                powi(n: i32)
                powf(n: Self)
                sqrt()
                exp()
                log(base: Self)
                cos()
                acos()
            }
        }
    )*};
}

floats!(f32 f64);
