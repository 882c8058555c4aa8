//! One call, run on the library and on the model from the same input: the answers must be equal, and so must all that was lent.

use crate::common::calls::{done_with, library, Call, Lent};
use crate::model;
use std::collections::BTreeSet;
use taldrimsu::Shape;

/// The answer codes that were seen; see `common/calls.rs` for their meaning.
pub type Seen = BTreeSet<u64>;

#[derive(Clone)]
pub struct Case {
    pub z: Shape,
    pub call: Call,
    pub lent: Lent,
}

/// Runs the case on both; tells the answer's code.
pub fn compare(case: &Case) -> u64 {
    let (mut ours, mut theirs) = (case.lent.clone(), case.lent.clone());
    let answer = library(case.z, case.call, &mut ours);
    let expected = modelled(case.z, case.call, &mut theirs);
    let about = format!("{:?} of {:?}", case.call, case.z);
    assert_eq!((answer % 256, answer / 256), (expected % 256, expected / 256), "answer (left: library) to {about}");
    same(&ours.cells, &theirs.cells, "cells", &about);
    same(&ours.book, &theirs.book, "journal", &about);
    same(&ours.message, &theirs.message, "message", &about);
    same(&ours.receipt, &theirs.receipt, "receipt", &about);
    answer % 256
}

/// The same for rebuild, which takes no shape.
pub fn compare_rebuild(n: usize, k: usize, b: usize, stripe: &[u8], losses: &[u8]) -> u64 {
    let (mut ours, mut theirs) = (stripe.to_vec(), stripe.to_vec());
    let (our_losses, their_losses) = (losses.to_vec(), losses.to_vec());
    let answer = done_with(taldrimsu::rebuild(n, k, b, &mut ours, &our_losses));
    let expected = model::rebuild(n, k, b, &mut theirs, &their_losses);
    let about = format!("rebuild of ({n}, {k}), B = {b}, losses {losses:?}");
    assert_eq!((answer % 256, answer / 256), (expected % 256, expected / 256), "answer (left: library) to {about}");
    same(&ours, &theirs, "stripe", &about);
    same(&our_losses, &their_losses, "losses", &about);
    answer % 256
}

fn same<T: PartialEq + std::fmt::Debug>(ours: &[T], theirs: &[T], what: &str, about: &str) {
    assert_eq!(ours.len(), theirs.len(), "length of the {what} after {about}");
    let differs = (0..ours.len()).find(|&i| ours[i] != theirs[i]);
    if let Some(i) = differs {
        panic!("{what} after {about}: at {i} the library left {:?}, the model {:?}", ours[i], theirs[i]);
    }
}

fn modelled(z: Shape, call: Call, lent: &mut Lent) -> u64 {
    let Lent { cells, book, message, receipt } = lent;
    let Shape { n, k, s, b } = z;
    match call {
        Call::Encode => model::encode(n, k, s, b, cells),
        Call::Begin { number } => model::begin(n, k, s, b, cells, book, number),
        Call::Compute { w } => model::compute(n, k, s, b, cells, book, w),
        Call::Send { w, e } => model::send(n, k, s, b, cells, book, w, e, message),
        Call::Deliver { node } => model::deliver(n, k, s, b, cells, book, node, message, receipt),
        Call::Receipt { node } => model::receipt(n, k, s, b, book, node, receipt),
        Call::Release { w } => model::release(n, k, s, b, cells, book, w),
        Call::Close => model::close(n, k, s, b, cells, book),
        Call::Status => model::status(n, k, s, b, book),
        Call::Read { g, d } => model::read(n, k, s, b, cells, book, g, d),
        Call::Drive { limit } => model::drive(n, k, s, b, cells, book, limit, message),
    }
}
