//! Dimensions, shapes and the place of an element.

use std::fmt::Debug;

#[derive(Clone, Copy, Debug, PartialEq, Eq)]
pub struct Axis(pub usize);

/// Lengths (or strides), one for each axis.
#[derive(Clone, Copy, Debug, PartialEq, Eq)]
pub struct Dim<I>(pub I);

pub type Ix1 = Dim<[usize; 1]>;
pub type Ix2 = Dim<[usize; 2]>;

pub trait Dimension: Copy + Debug + PartialEq {
    fn as_slice(&self) -> &[usize];

    /// Strides of an array of this shape whose last axis (or first, with
    /// `by_columns`) lies together.
    fn strides(&self, by_columns: bool) -> Self;

    /// Where the element with this number lies, numbered row by row.
    fn place(&self, strides: &Self, number: usize) -> usize;

    fn size(&self) -> usize {
        self.as_slice().iter().product()
    }
}

impl Dimension for Ix1 {
    fn as_slice(&self) -> &[usize] {
        &self.0
    }

    fn strides(&self, _by_columns: bool) -> Self {
        Dim([1])
    }

    fn place(&self, strides: &Self, number: usize) -> usize {
        number * strides.0[0]
    }
}

impl Dimension for Ix2 {
    fn as_slice(&self) -> &[usize] {
        &self.0
    }

    fn strides(&self, by_columns: bool) -> Self {
        if by_columns {
            Dim([1, self.0[0]])
        } else {
            Dim([self.0[1], 1])
        }
    }

    fn place(&self, strides: &Self, number: usize) -> usize {
        let columns = self.0[1];
        (number / columns) * strides.0[0] + (number % columns) * strides.0[1]
    }
}

/// What may stand between the brackets.
pub trait NdIndex<D> {
    /// The distance from the first element; stops where the index is outside.
    fn distance(self, shape: &D, strides: &D) -> usize;
}

impl NdIndex<Ix1> for usize {
    fn distance(self, shape: &Ix1, strides: &Ix1) -> usize {
        assert!(self < shape.0[0], "index outside the array");
        self * strides.0[0]
    }
}

impl NdIndex<Ix2> for [usize; 2] {
    fn distance(self, shape: &Ix2, strides: &Ix2) -> usize {
        let inside = self[0] < shape.0[0] && self[1] < shape.0[1];
        assert!(inside, "index outside the array");
        self[0] * strides.0[0] + self[1] * strides.0[1]
    }
}

/// A shape stored column by column.
pub struct ByColumns<D>(D);

pub trait ShapeBuilder: Sized {
    type Dim: Dimension;

    fn dim(&self) -> Self::Dim;

    fn by_columns(&self) -> bool {
        false
    }

    fn f(self) -> ByColumns<Self::Dim> {
        ByColumns(self.dim())
    }
}

impl ShapeBuilder for usize {
    type Dim = Ix1;

    fn dim(&self) -> Ix1 {
        Dim([*self])
    }
}

impl ShapeBuilder for (usize, usize) {
    type Dim = Ix2;

    fn dim(&self) -> Ix2 {
        Dim([self.0, self.1])
    }
}

impl<D: Dimension> ShapeBuilder for ByColumns<D> {
    type Dim = D;

    fn dim(&self) -> D {
        self.0
    }

    fn by_columns(&self) -> bool {
        true
    }
}

/// The elements given are not as many as the shape asks for.
#[derive(Clone, Copy, Debug)]
pub struct ShapeError;
