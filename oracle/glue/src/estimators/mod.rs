//! Glue: the estimators are not published and nothing compiled here uses them. In
//! their place stands what a request of document 02 puts into the Rust.

pub mod matrix;
