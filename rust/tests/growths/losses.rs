//! Nodes of the grown store are lost and every stripe is rebuilt.

use crate::checks::cell;
use crate::common::random::Random;
use crate::growth::Growth;
use crate::model;
use taldrimsu::{rebuild, Refusal, Shape};

/// Loses nodes up to one more than there are rows, every set of them if the store is small.
pub fn lose_nodes(random: &mut Random, growth: &Growth) {
    let z = growth.z;
    let sets: Vec<u32> = if z.nodes() <= 8 {
        (1..1 << z.nodes()).filter(|set: &u32| set.count_ones() as usize <= z.rows() + 1).collect()
    } else {
        (0..20).map(|_| some_nodes(random, z)).collect()
    };
    // Of the largest blocks a few stripes must do.
    let step = if z.b > 1000 { 7 } else { 1 };
    for set in sets {
        (0..z.kept()).step_by(step).for_each(|w| lose(growth, w, set));
    }
}

fn some_nodes(random: &mut Random, z: Shape) -> u32 {
    let mut nodes: Vec<usize> = (0..z.nodes()).collect();
    random.shuffle(&mut nodes);
    let lost = 1 + random.below(z.rows() + 1);
    nodes[..lost].iter().map(|node| 1 << node).sum()
}

/// Lifts new stripe w out, spoils its blocks on the lost nodes and rebuilds it.
fn lose(growth: &Growth, w: usize, set: u32) {
    let z = growth.z;
    let (n, k) = (z.nodes(), z.k + z.s);
    let columns = (0..k).map(|c| z.new_data_place(w, c));
    let places: Vec<(usize, usize)> = columns.chain((0..z.rows()).map(|j| z.new_parity_place(w, j))).collect();
    let losses: Vec<u8> = places.iter().map(|&(node, _)| (set >> node & 1) as u8).collect();
    let stored: Vec<u8> = places.iter().flat_map(|&place| cell(growth, place).to_vec()).collect();
    let mut stripe = stored.clone();
    for p in (0..n).filter(|&p| losses[p] == 1) {
        stripe[p * z.b..(p + 1) * z.b].fill(0xEE);
    }
    let spoilt = stripe.clone();
    let answer = rebuild(n, k, z.b, &mut stripe, &losses);
    if leave_data_open(n, k, &losses) {
        assert_eq!((answer, stripe == spoilt), (Err(Refusal::Ambiguous), true), "stripe {w} of {z:?} without {losses:?}");
    } else {
        let lost = set.count_ones() as usize;
        assert!(lost <= z.rows());
        assert_eq!((answer, stripe == stored), (Ok(lost), true), "stripe {w} of {z:?} without {losses:?}");
    }
}

/// Whether other data than zeros have zeros in all blocks that are present.
fn leave_data_open(n: usize, k: usize, losses: &[u8]) -> bool {
    model::rebuild(n, k, 1, &mut vec![0; n], losses) == model::AMBIGUOUS
}
