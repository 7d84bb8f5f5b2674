//! Glue: what the published files ask of a dataset.

use super::{AsMultiTargets, DatasetBase, DesignMatrix};

impl<DM: DesignMatrix, T: AsMultiTargets> DatasetBase<DM, T> {
    pub fn new(design_matrix: DM, targets: T) -> Self {
        DatasetBase {
            design_matrix,
            targets,
        }
    }

    pub fn design_matrix(&self) -> &DM {
        &self.design_matrix
    }

    pub fn targets(&self) -> &T {
        &self.targets
    }
}
