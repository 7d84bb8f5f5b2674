//! Stand-in: passes the derive on under the name that the published files use.

pub use thiserror_derive::Error;
