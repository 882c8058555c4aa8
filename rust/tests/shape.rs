//! Shapes: what is in range, the sizes and the places, against the model and by going through all of them.

mod model;

use std::collections::BTreeSet;
use taldrimsu::{Refusal, Shape};

/// Every shape in range, with blocks of 3 bytes.
fn all_shapes() -> Vec<Shape> {
    let mut all = Vec::new();
    for n in 0..=20 {
        for k in 0..=20 {
            all.extend((0..=20).filter_map(|s| Shape::new(n, k, s, 3).ok()));
        }
    }
    all
}

#[test]
fn check_is_the_models() {
    let numbers: Vec<usize> = (0..=22).chain([255, 256, 1 << 32, usize::MAX / 2, usize::MAX - 1, usize::MAX]).collect();
    let sizes = [0, 1, 2, 4095, 4096, 4097, usize::MAX];
    let mut refusals = BTreeSet::new();
    for &n in &numbers {
        for &k in &numbers {
            for &s in &numbers {
                for b in sizes {
                    let expected = model::check_shape(n, k, s, b).map(|_| ());
                    let found = Shape::new(n, k, s, b).map(|_| ()).map_err(|refusal| u64::from(refusal.number()));
                    assert_eq!(found, expected, "{n} {k} {s} {b}");
                    refusals.extend(found.err());
                }
            }
        }
    }
    assert_eq!(refusals, BTreeSet::from([1, 2]));
}

#[test]
fn sizes_are_the_models() {
    for z in all_shapes() {
        let other = model::Shape { n: z.n, k: z.k, s: z.s, b: z.b };
        assert_eq!(z.rows(), other.r(), "{z:?}");
        assert_eq!(z.kept(), other.kept(), "{z:?}");
        assert_eq!(z.stripes(), other.group(), "{z:?}");
        assert_eq!(z.dissolved(), other.group() - other.kept(), "{z:?}");
        assert_eq!(z.straight(), other.straight(), "{z:?}");
        assert_eq!(z.transfers(), other.items(), "{z:?}");
        assert_eq!(z.all_transfers(), other.kept() * other.items(), "{z:?}");
        assert_eq!(z.cells_len(), other.area_length(), "{z:?}");
        assert_eq!(z.book_len(), other.book_length(), "{z:?}");
        assert_eq!(z.message_len(), other.message_length(), "{z:?}");
    }
}

#[test]
fn the_other_sizes() {
    let z = Shape::new(6, 4, 3, 100).unwrap();
    assert_eq!((z.n, z.k, z.s, z.b), (6, 4, 3, 100));
    assert_eq!((z.nodes(), z.stripe_len(), z.grown_stripe_len()), (9, 600, 900));
    assert_eq!((z.message_len(), z.drive_space_len(), Shape::RECEIPT_LEN), (116, 132, 16));
}

/// The cells of the area follow each other without a gap, node by node and slot by slot.
#[test]
fn cells_fill_the_area_in_order() {
    for z in all_shapes() {
        let slots = |node| if node < z.n { z.stripes() } else { z.kept() };
        let mut next = 0;
        for node in 0..z.nodes() {
            for slot in 0..slots(node) {
                assert_eq!(z.cell_offset(node, slot), next, "{z:?}");
                next += z.b;
            }
        }
        assert_eq!(next, z.cells_len(), "{z:?}");
    }
}

#[test]
fn old_places_are_the_models_and_fill_the_old_nodes() {
    for z in all_shapes() {
        let other = model::Shape { n: z.n, k: z.k, s: z.s, b: z.b };
        for g in 0..z.stripes() {
            let mut nodes = BTreeSet::new();
            for d in 0..z.k {
                assert_eq!(z.data_place(g, d), (other.data_node(g, d), g), "{z:?}");
                nodes.insert(z.data_place(g, d).0);
            }
            for j in 0..z.rows() {
                assert_eq!(z.parity_place(g, j), (other.parity_node(g, j), g), "{z:?}");
                nodes.insert(z.parity_place(g, j).0);
            }
            assert_eq!(nodes, (0..z.n).collect(), "{z:?} stripe {g}");
        }
    }
}

/// Each new stripe has one block on each node, and the nodes are even: nk(k+s) data and nkr parity blocks on each.
#[test]
fn new_places_are_the_models_and_even() {
    for z in all_shapes() {
        let other = model::Shape { n: z.n, k: z.k, s: z.s, b: z.b };
        let (mut data, mut parity) = (vec![0; z.nodes()], vec![0; z.nodes()]);
        for w in 0..z.kept() {
            let columns: Vec<usize> = (0..z.k).map(|c| other.data_node(w, c)).chain((0..z.s).map(|t| other.new_block_home(w, t))).collect();
            for (c, node) in columns.into_iter().enumerate() {
                assert_eq!(z.new_data_place(w, c), (node, w), "{z:?}");
                data[node] += 1;
            }
            for j in 0..z.rows() {
                let stays = j > 0 || other.swap(w).is_none();
                let node = if stays { other.parity_node(w, j) } else { z.n + other.swap(w).unwrap() };
                assert_eq!(z.new_parity_place(w, j), (node, w), "{z:?}");
                parity[node] += 1;
            }
        }
        assert_eq!(data, vec![z.n * z.k * (z.k + z.s); z.nodes()], "{z:?}");
        assert_eq!(parity, vec![z.n * z.k * z.rows(); z.nodes()], "{z:?}");
    }
}

fn panic_text(act: impl FnOnce() -> (usize, usize) + std::panic::UnwindSafe) -> String {
    *std::panic::catch_unwind(act).expect_err("out of range").downcast::<String>().unwrap()
}

#[test]
fn places_out_of_range_say_so() {
    let z = Shape::new(4, 2, 1, 8).unwrap();
    assert_eq!(panic_text(|| z.data_place(60, 0)), "stripe 60 is out of range, there are 60");
    assert_eq!(panic_text(|| z.data_place(0, 2)), "column 2 is out of range, there are 2");
    assert_eq!(panic_text(|| z.parity_place(60, 0)), "stripe 60 is out of range, there are 60");
    assert_eq!(panic_text(|| z.parity_place(0, 2)), "parity row 2 is out of range, there are 2");
    assert_eq!(panic_text(|| z.new_data_place(40, 0)), "stripe 40 is out of range, there are 40");
    assert_eq!(panic_text(|| z.new_data_place(0, 3)), "column 3 is out of range, there are 3");
    assert_eq!(panic_text(|| z.new_parity_place(40, 0)), "stripe 40 is out of range, there are 40");
    assert_eq!(panic_text(|| z.new_parity_place(0, 2)), "parity row 2 is out of range, there are 2");
    assert_eq!(panic_text(|| (z.cell_offset(5, 0), 0)), "node 5 is out of range, there are 5");
    assert_eq!(panic_text(|| (z.cell_offset(3, 60), 0)), "slot 60 is out of range, there are 60");
    assert_eq!(panic_text(|| (z.cell_offset(4, 40), 0)), "slot 40 is out of range, there are 40");
}

#[test]
fn examples_5_and_6_and_the_widest() {
    let z = Shape::new(4, 2, 1, 1).unwrap();
    assert_eq!((z.straight(), z.new_parity_place(23, 0), z.new_parity_place(24, 0)), (24, (3, 23), (4, 24)));
    assert_eq!(Shape::new(4, 1, 2, 1).unwrap().straight(), 0);
    assert_eq!(Shape::new(4, 1, 3, 1), Err(Refusal::TooManyNewNodes));
    assert!(Shape::new(16, 13, 4, 1).is_ok());
    assert_eq!(Shape::new(16, 13, 5, 1), Err(Refusal::Shape));
}
