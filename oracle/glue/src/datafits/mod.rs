//! Glue: the module file of the datafits. The published files reach `Float`
//! through it.

use crate::Float;

pub mod multi_task;
pub mod single_task;
