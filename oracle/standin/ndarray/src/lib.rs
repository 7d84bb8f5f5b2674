//! Stand-in for the parts of `ndarray` that the published files use: arrays of
//! one and two dimensions, owned or lent. Everything that adds up does it in a
//! plain loop from left to right, starting at zero (see `dot.rs` and
//! `ArrayBase::sum`); `ndarray` itself promises no order.

mod array;
mod dot;
mod iter;
mod ops;
mod shape;

pub use array::{ArrayBase, Data, DataMut, OwnedRepr, ViewRepr};
pub use dot::{Dot, LinalgScalar};
pub use iter::Iter;
pub use ops::ScalarOperand;
pub use shape::{Axis, Dim, Dimension, Ix1, Ix2, NdIndex, ShapeBuilder, ShapeError};

pub type Array<A, D> = ArrayBase<OwnedRepr<A>, D>;
pub type Array1<A> = Array<A, Ix1>;
pub type Array2<A> = Array<A, Ix2>;
pub type ArrayView<'a, A, D> = ArrayBase<ViewRepr<&'a [A]>, D>;
pub type ArrayView1<'a, A> = ArrayView<'a, A, Ix1>;
pub type ArrayView2<'a, A> = ArrayView<'a, A, Ix2>;
pub type ArrayViewMut1<'a, A> = ArrayBase<ViewRepr<&'a mut [A]>, Ix1>;

pub mod prelude {
    pub use crate::{s, Array1, Array2, ArrayBase, ArrayView1, ArrayView2, Axis};
    pub use crate::{Dimension, Ix1, Ix2, ShapeBuilder};
}

/// One lane of a matrix: `axis` is the axis in which `index` is fixed.
#[derive(Clone, Copy)]
pub struct Lane {
    pub axis: Axis,
    pub index: usize,
}

/// The two slices in use: a whole column and a whole row.
#[macro_export]
macro_rules! s {
    (.., $column:expr) => {
        $crate::Lane {
            axis: $crate::Axis(1),
            index: $column,
        }
    };
    ($row:expr, ..) => {
        $crate::Lane {
            axis: $crate::Axis(0),
            index: $row,
        }
    };
}
