//! Glue: vectors and matrices as targets. A vector is one task.

use super::{AsMultiTargets, AsSingleTargets};
use crate::Float;
use ndarray::{ArrayBase, ArrayView2, Axis, Data, Ix1, Ix2};

impl<F: Float, S: Data<Elem = F>> AsMultiTargets for ArrayBase<S, Ix1> {
    type Elem = F;

    fn n_samples(&self) -> usize {
        self.len()
    }

    fn n_tasks(&self) -> usize {
        1
    }

    fn as_multi_tasks(&self) -> ArrayView2<'_, F> {
        self.view().insert_axis(Axis(1))
    }
}

impl<F: Float, S: Data<Elem = F>> AsSingleTargets for ArrayBase<S, Ix1> {}

impl<F: Float, S: Data<Elem = F>> AsMultiTargets for ArrayBase<S, Ix2> {
    type Elem = F;

    fn n_samples(&self) -> usize {
        self.len_of(Axis(0))
    }

    fn n_tasks(&self) -> usize {
        self.len_of(Axis(1))
    }

    fn as_multi_tasks(&self) -> ArrayView2<'_, F> {
        self.view()
    }
}

impl<F: Float, S: Data<Elem = F>> AsSingleTargets for ArrayBase<S, Ix2> {}
