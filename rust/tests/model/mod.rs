//! The model: a second implementation of every call, written from document 01 and the list of the functions with their answer codes
//! alone. It was not given the library's readings of the paper.

#[allow(dead_code)]
#[path = "model.rs"]
#[rustfmt::skip]
mod paper;

pub use paper::*;
