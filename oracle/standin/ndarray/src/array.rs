//! The array: where its elements are kept, its shape and its strides.

use crate::{Array, Array1, ArrayView, ArrayView1, ArrayViewMut1, Axis, Dim, Dimension};
use crate::{Iter, Ix1, Ix2, Lane, LinalgScalar, NdIndex, ShapeBuilder, ShapeError};
use num_traits::{One, Zero};
use std::fmt::{self, Debug};
use std::ops::{Add, Index, IndexMut};

/// Where the elements are kept. Only the elements' type is of use to callers.
pub trait Data {
    type Elem;

    fn elements(&self) -> &[Self::Elem];
}

pub trait DataMut: Data {
    fn elements_mut(&mut self) -> &mut [Self::Elem];
}

#[derive(Clone)]
pub struct OwnedRepr<A>(Vec<A>);

#[derive(Clone, Copy)]
pub struct ViewRepr<A>(A);

impl<A> Data for OwnedRepr<A> {
    type Elem = A;

    fn elements(&self) -> &[A] {
        &self.0
    }
}

impl<A> DataMut for OwnedRepr<A> {
    fn elements_mut(&mut self) -> &mut [A] {
        &mut self.0
    }
}

impl<A> Data for ViewRepr<&[A]> {
    type Elem = A;

    fn elements(&self) -> &[A] {
        self.0
    }
}

impl<A> Data for ViewRepr<&mut [A]> {
    type Elem = A;

    fn elements(&self) -> &[A] {
        self.0
    }
}

impl<A> DataMut for ViewRepr<&mut [A]> {
    fn elements_mut(&mut self) -> &mut [A] {
        self.0
    }
}

#[derive(Clone, Copy)]
pub struct ArrayBase<S, D> {
    data: S,
    first: usize,
    shape: D,
    strides: D,
}

/// Building owned arrays.
impl<A, D: Dimension> Array<A, D> {
    pub fn from_shape_vec<Sh: ShapeBuilder<Dim = D>>(
        shape: Sh,
        elements: Vec<A>,
    ) -> Result<Self, ShapeError> {
        let dim = shape.dim();
        if dim.size() != elements.len() {
            return Err(ShapeError);
        }
        Ok(ArrayBase {
            data: OwnedRepr(elements),
            first: 0,
            shape: dim,
            strides: dim.strides(shape.by_columns()),
        })
    }

    /// Elements row by row, of which there are as many as the shape asks for.
    pub(crate) fn row_by_row(shape: D, elements: Vec<A>) -> Self {
        assert_eq!(shape.size(), elements.len());
        ArrayBase {
            data: OwnedRepr(elements),
            first: 0,
            shape,
            strides: shape.strides(false),
        }
    }

    pub fn zeros<Sh: ShapeBuilder<Dim = D>>(shape: Sh) -> Self
    where
        A: Clone + Zero,
    {
        let dim = shape.dim();
        Self::row_by_row(dim, vec![A::zero(); dim.size()])
    }

    pub fn ones<Sh: ShapeBuilder<Dim = D>>(shape: Sh) -> Self
    where
        A: Clone + One,
    {
        let dim = shape.dim();
        Self::row_by_row(dim, vec![A::one(); dim.size()])
    }

    pub fn into_shape<Sh: ShapeBuilder>(self, shape: Sh) -> Result<Array<A, Sh::Dim>, ShapeError>
    where
        A: Clone,
    {
        Array::from_shape_vec(shape, self.into_iter().collect())
    }
}

impl<A> Array1<A> {
    pub fn from_vec(elements: Vec<A>) -> Self {
        Self::row_by_row(Dim([elements.len()]), elements)
    }

    // Not the trait's: the published files call it without naming the trait.
    #[allow(clippy::should_implement_trait)]
    pub fn from_iter<I: IntoIterator<Item = A>>(elements: I) -> Self {
        Self::from_vec(elements.into_iter().collect())
    }
}

/// Reading, whatever the dimension.
impl<A, S: Data<Elem = A>, D: Dimension> ArrayBase<S, D> {
    pub fn len(&self) -> usize {
        self.shape.size()
    }

    pub fn is_empty(&self) -> bool {
        self.len() == 0
    }

    pub fn shape(&self) -> &[usize] {
        self.shape.as_slice()
    }

    pub(crate) fn dim(&self) -> D {
        self.shape
    }

    pub fn len_of(&self, axis: Axis) -> usize {
        self.shape()[axis.0]
    }

    pub fn view(&self) -> ArrayView<'_, A, D> {
        ArrayBase {
            data: ViewRepr(self.data.elements()),
            first: self.first,
            shape: self.shape,
            strides: self.strides,
        }
    }

    /// The elements row by row.
    pub fn iter(&self) -> Iter<'_, A, D> {
        Iter::new(self.view())
    }

    pub fn to_owned(&self) -> Array<A, D>
    where
        A: Clone,
    {
        Array::row_by_row(self.shape, self.iter().cloned().collect())
    }

    pub fn map<'a, B>(&'a self, f: impl FnMut(&'a A) -> B) -> Array<B, D>
    where
        A: 'a,
    {
        Array::row_by_row(self.shape, self.iter().map(f).collect())
    }

    pub fn fold<'a, B>(&'a self, start: B, f: impl FnMut(B, &'a A) -> B) -> B
    where
        A: 'a,
    {
        self.iter().fold(start, f)
    }

    /// From left to right, starting at zero.
    pub fn sum(&self) -> A
    where
        A: Clone + Add<Output = A> + Zero,
    {
        let mut sum = A::zero();
        for element in self.iter() {
            sum = sum + element.clone();
        }
        sum
    }
}

/// Writing, whatever the dimension.
impl<A, S: DataMut<Elem = A>, D: Dimension> ArrayBase<S, D> {
    /// Changes each element by its partner in an array of the same shape.
    fn change_by<S2: Data<Elem = A>>(
        &mut self,
        other: &ArrayBase<S2, D>,
        change: impl Fn(&mut A, &A),
    ) {
        assert_eq!(self.shape, other.shape, "shapes differ");
        for (number, partner) in other.iter().enumerate() {
            let place = self.first + self.shape.place(&self.strides, number);
            change(&mut self.data.elements_mut()[place], partner);
        }
    }

    pub fn assign<S2: Data<Elem = A>>(&mut self, other: &ArrayBase<S2, D>)
    where
        A: Clone,
    {
        self.change_by(other, |element, partner| *element = partner.clone());
    }

    pub fn scaled_add<S2: Data<Elem = A>>(&mut self, factor: A, other: &ArrayBase<S2, D>)
    where
        A: LinalgScalar,
    {
        self.change_by(other, |element, partner| {
            *element = *element + factor * *partner
        });
    }
}

/// A vector as a matrix of one column.
impl<S: Data> ArrayBase<S, Ix1> {
    pub fn insert_axis(self, axis: Axis) -> ArrayBase<S, Ix2> {
        assert_eq!(axis, Axis(1), "the stand-in makes columns only");
        ArrayBase {
            shape: Dim([self.shape.0[0], 1]),
            strides: Dim([self.strides.0[0], 1]),
            data: self.data,
            first: self.first,
        }
    }
}

/// Taking matrices apart.
impl<A, S: Data<Elem = A>> ArrayBase<S, Ix2> {
    pub fn t(&self) -> ArrayView<'_, A, Ix2> {
        let [rows, columns] = self.shape.0;
        let [down, right] = self.strides.0;
        ArrayBase {
            data: ViewRepr(self.data.elements()),
            first: self.first,
            shape: Dim([columns, rows]),
            strides: Dim([right, down]),
        }
    }

    /// First place, length and stride of a lane.
    fn lane(&self, lane: Lane) -> (usize, usize, usize) {
        let along = 1 - lane.axis.0;
        assert!(lane.index < self.len_of(lane.axis), "lane outside");
        (
            self.first + lane.index * self.strides.0[lane.axis.0],
            self.shape.0[along],
            self.strides.0[along],
        )
    }

    pub fn slice(&self, lane: Lane) -> ArrayView1<'_, A> {
        self.view().index_axis_move(lane.axis, lane.index)
    }

    pub fn index_axis_move(self, axis: Axis, index: usize) -> ArrayBase<S, Ix1> {
        let (first, length, stride) = self.lane(Lane { axis, index });
        ArrayBase {
            data: self.data,
            first,
            shape: Dim([length]),
            strides: Dim([stride]),
        }
    }

    pub fn slice_mut(&mut self, lane: Lane) -> ArrayViewMut1<'_, A>
    where
        S: DataMut,
    {
        let (first, length, stride) = self.lane(lane);
        ArrayBase {
            data: ViewRepr(self.data.elements_mut()),
            first,
            shape: Dim([length]),
            strides: Dim([stride]),
        }
    }

    /// The lanes in which `axis` is fixed, in order.
    pub fn axis_iter(&self, axis: Axis) -> std::vec::IntoIter<ArrayView1<'_, A>> {
        let lanes: Vec<_> = (0..self.len_of(axis))
            .map(|index| self.slice(Lane { axis, index }))
            .collect();
        lanes.into_iter()
    }

    pub fn rows(&self) -> std::vec::IntoIter<ArrayView1<'_, A>> {
        self.axis_iter(Axis(0))
    }

    pub fn columns(&self) -> std::vec::IntoIter<ArrayView1<'_, A>> {
        self.axis_iter(Axis(1))
    }

    /// One answer for each lane along `axis`.
    pub fn map_axis<'a, B>(&'a self, axis: Axis, f: impl FnMut(ArrayView1<'a, A>) -> B) -> Array1<B>
    where
        A: 'a,
    {
        Array1::from_iter(self.axis_iter(Axis(1 - axis.0)).map(f))
    }
}

impl<S: Data, D: Dimension, I: NdIndex<D>> Index<I> for ArrayBase<S, D> {
    type Output = S::Elem;

    fn index(&self, index: I) -> &S::Elem {
        &self.data.elements()[self.first + index.distance(&self.shape, &self.strides)]
    }
}

impl<S: DataMut, D: Dimension, I: NdIndex<D>> IndexMut<I> for ArrayBase<S, D> {
    fn index_mut(&mut self, index: I) -> &mut S::Elem {
        let place = self.first + index.distance(&self.shape, &self.strides);
        &mut self.data.elements_mut()[place]
    }
}

impl<'a, A, D: Dimension> ArrayView<'a, A, D> {
    /// The element with this number, counted row by row.
    pub(crate) fn numbered(&self, number: usize) -> &'a A {
        &self.data.0[self.first + self.shape.place(&self.strides, number)]
    }
}

impl<'a, A> From<&'a [A]> for ArrayView1<'a, A> {
    fn from(elements: &'a [A]) -> Self {
        let shape = Dim([elements.len()]);
        ArrayBase {
            data: ViewRepr(elements),
            first: 0,
            shape,
            strides: shape.strides(false),
        }
    }
}

impl<S, S2, D> PartialEq<ArrayBase<S2, D>> for ArrayBase<S, D>
where
    S: Data,
    S2: Data<Elem = S::Elem>,
    S::Elem: PartialEq,
    D: Dimension,
{
    fn eq(&self, other: &ArrayBase<S2, D>) -> bool {
        self.shape == other.shape && self.iter().eq(other.iter())
    }
}

impl<S: Data, D: Dimension> Debug for ArrayBase<S, D>
where
    S::Elem: Debug,
{
    fn fmt(&self, out: &mut fmt::Formatter<'_>) -> fmt::Result {
        write!(out, "{:?} ", self.shape())?;
        out.debug_list().entries(self.iter()).finish()
    }
}
