//! Glue: the module file of the penalties. The published files reach `Float`
//! through it.

use crate::Float;

pub mod block_separable;
pub mod separable;
