//! Every call against the model: equal answers and, byte for byte, equal memory, on stores at every stage and on spoilt input of
//! every sort.
//!
//! Each test also says which answer codes document 01 lets the call give, and fails if one of them was not seen or another one was.
//! The codes are told in `common/calls.rs`.

mod cases;
#[allow(dead_code)]
#[path = "../common/mod.rs"]
mod common;
mod damage;
#[path = "../model/mod.rs"]
mod model;
mod rebuild;
mod runs;
mod shapes;
mod stores;

use cases::{run, Given};
use common::calls::{Call, Lent};
use common::random::Random;
use runs::{compare, Case, Seen};
use stores::Store;
use taldrimsu::Shape;

/// Cases of each call with long blocks.
const LONG: usize = 500;

/// Narrow stores with short blocks are quick, so they get most cases; of wide ones and of long blocks the model is slow.
fn check(seed: u64, narrow: usize, wide: usize, make: fn(&mut Random, &Store) -> Given, codes: &[u64]) {
    let mut seen = run(seed, narrow, &shapes::NARROW, make);
    assert_eq!(seen, codes.iter().copied().collect::<Seen>(), "answer codes seen (left) and those of document 01");
    seen.extend(run(seed + 1000, wide, &shapes::WIDE, make));
    seen.extend(run(seed + 2000, LONG, &shapes::LONG_BLOCKS, make));
    assert_eq!(
        seen,
        codes.iter().copied().collect::<Seen>(),
        "answer codes seen (left) and those of document 01, wide stores and long blocks too"
    );
}

#[test]
fn encode() {
    check(1, 10_000, 200, cases::encodes, &[0, 1, 2, 3]);
}

#[test]
fn begin() {
    check(2, 10_000, 200, cases::begins, &[0, 1, 2, 3, 5, 12]);
}

#[test]
fn compute() {
    check(3, 50_000, 1_000, cases::computes, &[0, 32, 1, 2, 3, 4, 5, 13]);
}

#[test]
fn send() {
    check(4, 50_000, 1_000, cases::sends, &[0, 1, 2, 3, 4, 5, 6, 7, 13]);
}

#[test]
fn deliver() {
    check(5, 100_000, 1_000, cases::delivers, &[0, 32, 1, 2, 3, 4, 5, 9, 10, 13]);
}

#[test]
fn receipt() {
    check(6, 100_000, 1_000, cases::receipts, &[0, 32, 1, 2, 3, 4, 5, 6, 9, 10, 13]);
}

#[test]
fn release() {
    check(7, 50_000, 1_000, cases::releases, &[0, 32, 1, 2, 3, 4, 5, 6, 8, 13]);
}

#[test]
fn close() {
    check(8, 50_000, 1_000, cases::closes, &[0, 1, 2, 3, 4, 8, 13]);
}

#[test]
fn status() {
    check(9, 100_000, 1_000, cases::statuses, &[41, 42, 1, 2, 3, 4]);
}

#[test]
fn read() {
    check(10, 50_000, 1_000, cases::reads, &[0, 1, 2, 3, 4, 5]);
}

#[test]
fn drive() {
    check(11, 20_000, 50, cases::drives, &[33, 34, 1, 2, 3, 4, 13]);
}

/// Every call is given the shape first: with nothing lent it is refused with 1 or 2 for the shape, or with 3.
#[test]
fn every_shape() {
    let lent = Lent { cells: vec![], book: vec![], message: vec![], receipt: vec![] };
    let calls = [
        Call::Encode,
        Call::Begin { number: 0 },
        Call::Compute { w: 0 },
        Call::Send { w: 0, e: 0 },
        Call::Deliver { node: 0 },
        Call::Receipt { node: 0 },
        Call::Release { w: 0 },
        Call::Close,
        Call::Status,
        Call::Read { g: 0, d: 0 },
        Call::Drive { limit: 0 },
    ];
    let mut case = Case { z: Shape { n: 0, k: 0, s: 0, b: 0 }, call: Call::Encode, lent };
    for call in calls {
        let mut seen = Seen::new();
        for z in shapes::mixtures() {
            (case.z, case.call) = (z, call);
            seen.insert(compare(&case));
        }
        assert_eq!(seen, Seen::from([1, 2, 3]), "{call:?}");
    }
}
