//! Element by element: arrays with arrays, arrays with one number.

use crate::{Array, ArrayBase, Data, Dimension};
use std::ops::{Add, Div, Mul, Sub};

/// Numbers that may stand beside an array.
pub trait ScalarOperand: 'static + Clone {}

impl ScalarOperand for f32 {}
impl ScalarOperand for f64 {}

fn pairs<A: Clone, S, S2, D>(
    left: &ArrayBase<S, D>,
    right: &ArrayBase<S2, D>,
    f: impl Fn(A, A) -> A,
) -> Array<A, D>
where
    S: Data<Elem = A>,
    S2: Data<Elem = A>,
    D: Dimension,
{
    assert_eq!(left.dim(), right.dim(), "shapes differ");
    let pairs = left.iter().zip(right.iter());
    let elements = pairs.map(|(a, b)| f(a.clone(), b.clone())).collect();
    Array::row_by_row(left.dim(), elements)
}

/// One way of lending or giving the two arrays; `$left` and `$right` are the
/// types as they stand in the expression.
macro_rules! array_with_array {
    ($operator:ident $method:ident: $($left:ty, $right:ty;)*) => {$(
        impl<A, S, S2, D> $operator<$right> for $left
        where
            A: Clone + $operator<Output = A>,
            S: Data<Elem = A>,
            S2: Data<Elem = A>,
            D: Dimension,
        {
            type Output = Array<A, D>;

            fn $method(self, right: $right) -> Array<A, D> {
                pairs(&self.view(), &right.view(), |a, b| a.$method(b))
            }
        }
    )*};
}

array_with_array! { Add add: ArrayBase<S, D>, ArrayBase<S2, D>; }
array_with_array! {
    Sub sub:
    ArrayBase<S, D>, ArrayBase<S2, D>;
    &ArrayBase<S, D>, ArrayBase<S2, D>;
    &ArrayBase<S, D>, &ArrayBase<S2, D>;
}

macro_rules! array_with_number {
    ($operator:ident $method:ident: $($left:ty;)*) => {$(
        impl<A, S, D> $operator<A> for $left
        where
            A: ScalarOperand + $operator<Output = A>,
            S: Data<Elem = A>,
            D: Dimension,
        {
            type Output = Array<A, D>;

            fn $method(self, number: A) -> Array<A, D> {
                self.map(|element| element.clone().$method(number.clone()))
            }
        }
    )*};
}

array_with_number! { Mul mul: &ArrayBase<S, D>; }
array_with_number! { Div div: ArrayBase<S, D>; &ArrayBase<S, D>; }
