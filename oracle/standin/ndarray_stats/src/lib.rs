//! Stand-in: the published files name this crate and use nothing of it.
