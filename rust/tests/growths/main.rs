//! Whole growths over a link that loses, repeats, shuffles and misdirects, with drives in between. Then the grown store is
//! examined, loses nodes and is rebuilt.

mod checks;
#[allow(dead_code)]
#[path = "../common/mod.rs"]
mod common;
mod growth;
mod link;
mod losses;
#[path = "../model/mod.rs"]
mod model;

use common::random::Random;
use growth::Growth;
use link::Link;
use taldrimsu::{Refusal, Shape};

/// Who takes the steps that the link left undone.
enum Rest {
    /// Single calls, in a shuffled order.
    ByHand,
    /// One drive.
    ByDrive,
}

/// Runs a growth to its end, examines the grown store, and rebuilds it after losses.
fn whole_growth(seed: u64, shape: (usize, usize, usize, usize), rest: Rest) {
    let mut random = Random::new(seed);
    let z = Shape::new(shape.0, shape.1, shape.2, shape.3).unwrap();
    let mut growth = Growth::begun(&mut random, z);
    let mut link = Link::default();
    for _ in 0..10 * z.all_transfers() {
        link.turn(&mut random, &mut growth);
        growth.check_under_way(&mut random);
    }
    assert_eq!(growth.close(), Err(Refusal::Unfinished));
    match rest {
        Rest::ByHand => growth.finish_by_hand(&mut random),
        Rest::ByDrive => growth.finish_by_drive(),
    }
    link.repeats(&mut growth);
    assert_eq!(growth.close(), Ok(()));
    link.too_late(&mut growth);
    checks::grown(&growth);
    losses::lose_nodes(&mut random, &growth);
}

/// Both ways to end it, each with two links.
fn growths(shape: (usize, usize, usize, usize)) {
    for seed in [31, 32] {
        whole_growth(seed, shape, Rest::ByHand);
        whole_growth(seed + 100, shape, Rest::ByDrive);
    }
}

#[test]
fn one_row() {
    growths((3, 2, 1, 5));
    growths((2, 1, 3, 2));
}

#[test]
fn two_rows() {
    growths((4, 2, 1, 4));
    growths((6, 4, 3, 1));
}

/// (4,1,2) has swapped stripes only; (6,3,1) grows into (7,4), of which some three losses cannot be undone.
#[test]
fn three_rows() {
    growths((4, 1, 2, 3));
    growths((5, 2, 1, 2));
    growths((6, 3, 1, 3));
}

#[test]
fn four_rows() {
    growths((5, 1, 1, 2));
    growths((6, 2, 2, 2));
    growths((9, 5, 3, 1));
}

#[test]
fn many_new_nodes() {
    growths((4, 3, 16, 1));
}

#[test]
fn the_largest_blocks() {
    growths((4, 2, 1, 4096));
}
