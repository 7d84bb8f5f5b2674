//! Products: each entry is a sum from left to right that starts at zero.

use crate::{s, Array1, Array2, ArrayBase, ArrayView1, Data, Dimension, Ix1, Ix2};
use num_traits::{One, Zero};
use std::ops::{Add, Div, Mul, Sub};

pub trait LinalgScalar:
    'static
    + Copy
    + Zero
    + One
    + Add<Output = Self>
    + Sub<Output = Self>
    + Mul<Output = Self>
    + Div<Output = Self>
{
}

impl<T> LinalgScalar for T where
    T: 'static
        + Copy
        + Zero
        + One
        + Add<Output = T>
        + Sub<Output = T>
        + Mul<Output = T>
        + Div<Output = T>
{
}

pub trait Dot<Rhs> {
    type Output;

    fn dot_with(&self, right: &Rhs) -> Self::Output;
}

impl<S: Data, D: Dimension> ArrayBase<S, D> {
    pub fn dot<Rhs>(&self, right: &Rhs) -> <Self as Dot<Rhs>>::Output
    where
        Self: Dot<Rhs>,
    {
        self.dot_with(right)
    }
}

/// The one loop behind every product.
fn sum_of_products<A: LinalgScalar>(left: ArrayView1<A>, right: ArrayView1<A>) -> A {
    assert_eq!(left.len(), right.len(), "lengths differ");
    let mut sum = A::zero();
    for i in 0..left.len() {
        sum = sum + left[i] * right[i];
    }
    sum
}

impl<A, S, S2> Dot<ArrayBase<S2, Ix1>> for ArrayBase<S, Ix1>
where
    A: LinalgScalar,
    S: Data<Elem = A>,
    S2: Data<Elem = A>,
{
    type Output = A;

    fn dot_with(&self, right: &ArrayBase<S2, Ix1>) -> A {
        sum_of_products(self.view(), right.view())
    }
}

impl<A, S, S2> Dot<ArrayBase<S2, Ix2>> for ArrayBase<S, Ix1>
where
    A: LinalgScalar,
    S: Data<Elem = A>,
    S2: Data<Elem = A>,
{
    type Output = Array1<A>;

    fn dot_with(&self, right: &ArrayBase<S2, Ix2>) -> Array1<A> {
        let columns = right.columns();
        Array1::from_iter(columns.map(|column| sum_of_products(self.view(), column)))
    }
}

impl<A, S, S2> Dot<ArrayBase<S2, Ix1>> for ArrayBase<S, Ix2>
where
    A: LinalgScalar,
    S: Data<Elem = A>,
    S2: Data<Elem = A>,
{
    type Output = Array1<A>;

    fn dot_with(&self, right: &ArrayBase<S2, Ix1>) -> Array1<A> {
        let rows = self.rows();
        Array1::from_iter(rows.map(|row| sum_of_products(row, right.view())))
    }
}

impl<A, S, S2> Dot<ArrayBase<S2, Ix2>> for ArrayBase<S, Ix2>
where
    A: LinalgScalar,
    S: Data<Elem = A>,
    S2: Data<Elem = A>,
{
    type Output = Array2<A>;

    fn dot_with(&self, right: &ArrayBase<S2, Ix2>) -> Array2<A> {
        let (rows, columns) = (self.shape()[0], right.shape()[1]);
        let mut product = Array2::zeros((rows, columns));
        for i in 0..rows {
            for j in 0..columns {
                product[[i, j]] = sum_of_products(self.slice(s![i, ..]), right.slice(s![.., j]));
            }
        }
        product
    }
}
