//! What is promised of a closed growth. Which old blocks a new stripe gets, and what its parity must be, is asked of the model.

use crate::growth::Growth;
use crate::model;
use std::collections::BTreeSet;
use taldrimsu::{Shape, State, Status};

/// The cell at a place.
pub fn cell(growth: &Growth, (node, slot): (usize, usize)) -> &[u8] {
    &growth.cells[growth.z.cell_offset(node, slot)..][..growth.z.b]
}

pub fn grown(growth: &Growth) {
    let z = growth.z;
    let accepted = growth.delivered + growth.driven;
    assert_eq!(accepted, z.all_transfers());
    assert_eq!(taldrimsu::status(z, &growth.book), Ok(Status { state: State::Closed, accepted }));
    assert!(growth.accepted.iter().all(|&times| times == 1), "each transfer is accepted once");
    every_block_is_there_once(growth);
    parity_is_fresh(growth);
    nothing_else_is_left(growth);
}

/// The old block, stripe and column, that is column c of new stripe w.
fn old_block(z: Shape, w: usize, c: usize) -> (usize, usize) {
    if c < z.k {
        return (w, c);
    }
    let shape = model::Shape { n: z.n, k: z.k, s: z.s, b: z.b };
    let g = shape.new_block_slots(w)[c - z.k];
    let d = (0..z.k).find(|&d| shape.data_node(g, d) == shape.sender(w)).unwrap();
    (g, d)
}

/// Each old block is one column of one new stripe, its cell holds what the block was, and read finds it there.
fn every_block_is_there_once(growth: &Growth) {
    let z = growth.z;
    let mut found = BTreeSet::new();
    for w in 0..z.kept() {
        for c in 0..z.k + z.s {
            let (g, d) = old_block(z, w, c);
            let (node, slot) = z.new_data_place(w, c);
            assert_eq!(cell(growth, (node, slot)), growth.old[g * z.k + d], "column {c} of new stripe {w}");
            assert_eq!(taldrimsu::locate(z, &growth.cells, &growth.book, g, d), Ok(z.cell_offset(node, slot)));
            assert!(found.insert((g, d)), "block {g} {d} stands twice");
        }
    }
    assert_eq!(found.len(), growth.old.len());
}

fn parity_is_fresh(growth: &Growth) {
    let z = growth.z;
    for w in 0..z.kept() {
        let columns: Vec<Vec<u8>> = (0..z.k + z.s).map(|c| cell(growth, z.new_data_place(w, c)).to_vec()).collect();
        for j in 0..z.rows() {
            assert_eq!(cell(growth, z.new_parity_place(w, j)), model::row_sum(j, 0, &columns, z.b), "row {j} of new stripe {w}");
        }
    }
}

/// Every node has nk(k+s) data and nkr parity blocks, and the cells without one are zero.
fn nothing_else_is_left(growth: &Growth) {
    let z = growth.z;
    let (mut data, mut parity) = (vec![0; z.nodes()], vec![0; z.nodes()]);
    for w in 0..z.kept() {
        (0..z.k + z.s).for_each(|c| data[z.new_data_place(w, c).0] += 1);
        (0..z.rows()).for_each(|j| parity[z.new_parity_place(w, j).0] += 1);
    }
    assert_eq!(data, vec![z.n * z.k * (z.k + z.s); z.nodes()]);
    assert_eq!(parity, vec![z.n * z.k * z.rows(); z.nodes()]);
    for node in 0..z.n {
        let dissolved = &growth.cells[z.cell_offset(node, z.kept())..][..z.dissolved() * z.b];
        assert!(dissolved.iter().all(|&byte| byte == 0), "node {node} holds something of a dissolved stripe");
    }
}
