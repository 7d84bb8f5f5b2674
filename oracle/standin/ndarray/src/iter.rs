//! Visiting the elements row by row.

use crate::{Array, ArrayView, Dimension};

pub struct Iter<'a, A, D> {
    view: ArrayView<'a, A, D>,
    next: usize,
}

impl<'a, A, D: Dimension> Iter<'a, A, D> {
    pub(crate) fn new(view: ArrayView<'a, A, D>) -> Self {
        Iter { view, next: 0 }
    }
}

impl<'a, A, D: Dimension> Iterator for Iter<'a, A, D> {
    type Item = &'a A;

    fn next(&mut self) -> Option<&'a A> {
        if self.next == self.view.len() {
            return None;
        }
        self.next += 1;
        Some(self.view.numbered(self.next - 1))
    }
}

impl<'a, A, D: Dimension> IntoIterator for ArrayView<'a, A, D> {
    type Item = &'a A;
    type IntoIter = Iter<'a, A, D>;

    fn into_iter(self) -> Iter<'a, A, D> {
        Iter::new(self)
    }
}

impl<A: Clone, D: Dimension> IntoIterator for Array<A, D> {
    type Item = A;
    type IntoIter = std::vec::IntoIter<A>;

    fn into_iter(self) -> std::vec::IntoIter<A> {
        let elements: Vec<A> = self.iter().cloned().collect();
        elements.into_iter()
    }
}
