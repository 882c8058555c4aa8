//! What the documents say of the limits: rebuild in the middle of a growth, and a store that has grown.

#[path = "common/random.rs"]
#[allow(dead_code)]
mod random;

use random::Random;
use taldrimsu::{begin, close, compute, drive, encode, read, rebuild, Refusal, Shape};

const SHAPE: Shape = Shape { n: 6, k: 4, s: 2, b: 64 };

/// The cells and the journal of a store of random bytes whose growth has begun.
fn begun(z: Shape, seed: u64) -> (Vec<u8>, Vec<u32>) {
    let mut cells = Random::new(seed).bytes(z.cells_len());
    let mut book = vec![0; z.book_len()];
    encode(z, &mut cells).unwrap();
    begin(z, &mut cells, &mut book, 7).unwrap();
    (cells, book)
}

/// The cells of a store of random bytes when its growth has begun, and the same cells with every stripe computed.
fn begun_and_computed(z: Shape) -> (Vec<u8>, Vec<u8>) {
    let (before, mut book) = begun(z, 1);
    let mut cells = before.clone();
    for w in 0..z.kept() {
        compute(z, &mut cells, &mut book, w).unwrap();
    }
    (before, cells)
}

/// The nodes of a straight stripe's blocks, columns and then rows: by the old code, or by the new one with its s columns more.
fn nodes(z: Shape, w: usize, new: bool) -> Vec<usize> {
    let columns = (0..z.k).map(|d| z.data_place(w, d).0);
    let added = z.n..z.n + if new { z.s } else { 0 };
    columns.chain(added).chain((0..z.rows()).map(|j| z.parity_place(w, j).0)).collect()
}

fn stripe(z: Shape, cells: &[u8], w: usize, new: bool) -> Vec<u8> {
    nodes(z, w, new).into_iter().flat_map(|node| &cells[z.cell_offset(node, w)..][..z.b]).copied().collect()
}

/// How many of the stripes rebuild answers for without these nodes, by one of the codes, and how many of them then have wrong data.
fn rebuilt_and_wrong(z: Shape, begun: &[u8], computed: &[u8], dead: &[usize], stripes: usize, new: bool) -> (usize, usize) {
    let (n, k) = if new { (z.n + z.s, z.k + z.s) } else { (z.n, z.k) };
    let (mut rebuilt, mut wrong) = (0, 0);
    for w in 0..stripes {
        let losses: Vec<u8> = nodes(z, w, new).iter().map(|node| u8::from(dead.contains(node))).collect();
        let mut found = stripe(z, computed, w, new);
        for (block, _) in losses.iter().enumerate().filter(|(_, loss)| **loss == 1) {
            found[block * z.b..][..z.b].fill(0xEE);
        }
        match rebuild(n, k, z.b, &mut found, &losses) {
            Ok(_) => {
                rebuilt += 1;
                wrong += usize::from(found[..z.k * z.b] != stripe(z, begun, w, new)[..z.k * z.b]);
            }
            Err(refusal) => assert_eq!(refusal, Refusal::Inconsistent),
        }
    }
    (rebuilt, wrong)
}

/// By the old code: with one node lost a parity row is left to compare with, and rebuild refuses all but the stripes whose row 0 is
/// lost. With two old nodes lost nothing is left: it answers for all 192 stripes, and 128 have wrong data.
#[test]
fn a_stripe_between_two_codes_can_be_rebuilt_wrong() {
    let z = SHAPE;
    let (begun, computed) = begun_and_computed(z);
    for first in 0..z.n {
        assert_eq!(rebuilt_and_wrong(z, &begun, &computed, &[first], z.kept(), false), (32, 0));
        for second in first + 1..z.n {
            assert_eq!(rebuilt_and_wrong(z, &begun, &computed, &[first, second], z.kept(), false), (192, 128));
        }
    }
}

/// Nor is the new code a way out, tried on the 96 straight stripes: their new columns have not come yet.
#[test]
fn the_new_code_rebuilds_it_wrong_too() {
    let z = SHAPE;
    let (begun, computed) = begun_and_computed(z);
    for first in 0..z.n {
        for second in first + 1..z.n {
            assert_eq!(rebuilt_and_wrong(z, &begun, &computed, &[first, second], z.straight(), true), (96, 64));
        }
    }
}

/// As long as no stripe is computed every loss of two nodes comes back.
#[test]
fn a_fresh_stripe_is_rebuilt_by_the_old_code() {
    let z = SHAPE;
    let (begun, _) = begun_and_computed(z);
    assert_eq!(rebuilt_and_wrong(z, &begun, &begun, &[0, 1], z.kept(), false), (192, 0));
}

/// The grown groups of a shape side by side on its nodes, slots one after the other, as many as a group of `next` has stripes; and
/// begin's answers to the single groups.
fn grown_side_by_side(z: Shape, next: Shape) -> (Vec<u8>, Vec<Result<(), Refusal>>) {
    assert_eq!(next.stripes() % z.kept(), 0);
    let mut wider = vec![0; next.cells_len()];
    let mut answers = Vec::new();
    for group in 0..next.stripes() / z.kept() {
        let (mut cells, mut book) = begun(z, group as u64);
        drive(z, &mut cells, &mut book, z.all_transfers(), &mut vec![0; z.drive_space_len()]).unwrap();
        close(z, &mut cells, &mut book).unwrap();
        for node in 0..next.n {
            let from = z.cell_offset(node, 0);
            let to = next.cell_offset(node, group * z.kept());
            let bytes = z.kept() * z.b;
            wider[to..to + bytes].copy_from_slice(&cells[from..from + bytes]);
        }
        answers.push(begin(z, &mut cells, &mut book, 8));
    }
    (wider, answers)
}

/// The closed layout is not the first layout of the shape that was grown, nor that of the next shape.
#[test]
fn a_grown_store_cannot_grow_again() {
    let (z, next) = (Shape { n: 4, k: 2, s: 1, b: 16 }, Shape { n: 5, k: 3, s: 1, b: 16 });
    let (mut wider, answers) = grown_side_by_side(z, next);
    assert_eq!(answers, [Err(Refusal::Inconsistent); 3]);
    assert_eq!(begin(next, &mut wider, &mut vec![0; next.book_len()], 8), Err(Refusal::Inconsistent));
}

/// Begin does not notice where there is one parity row: it is the sum of the columns, so each block of a stripe is the sum of the
/// others. Read then takes the parity of a grown stripe for data.
#[test]
fn with_one_row_begin_accepts_the_grown_layout() {
    let (z, next) = (Shape { n: 2, k: 1, s: 1, b: 16 }, Shape { n: 3, k: 2, s: 1, b: 16 });
    let (mut wider, _) = grown_side_by_side(z, next);
    let mut book = vec![0; next.book_len()];
    assert_eq!(begin(next, &mut wider, &mut book, 8), Ok(()));
    let w = 2;
    let parity = next.cell_offset(z.parity_place(w, 0).0, w);
    assert_eq!(read(next, &wider, &book, w, 0), Ok(&wider[parity..][..next.b]));
}
