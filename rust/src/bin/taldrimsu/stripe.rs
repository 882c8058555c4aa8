//! Stripes of the grown store, lifted out of the cells and put back. Rebuild takes a stripe as its columns, then its rows.

use std::ops::Range;
use taldrimsu::Shape;

/// A node and a slot.
pub type Place = (usize, usize);

/// The part of the area that is the cell at this place.
pub fn cell(z: Shape, (node, slot): Place) -> Range<usize> {
    let start = z.cell_offset(node, slot);
    start..start + z.b
}

pub fn places(z: Shape, w: usize) -> Vec<Place> {
    let columns = (0..z.k + z.s).map(|c| z.new_data_place(w, c));
    columns.chain((0..z.rows()).map(|j| z.new_parity_place(w, j))).collect()
}

pub fn lift(z: Shape, cells: &[u8], w: usize) -> Vec<u8> {
    places(z, w).into_iter().flat_map(|place| &cells[cell(z, place)]).copied().collect()
}

pub fn put_back(z: Shape, cells: &mut [u8], w: usize, stripe: &[u8]) {
    for (place, block) in places(z, w).into_iter().zip(stripe.chunks_exact(z.b)) {
        cells[cell(z, place)].copy_from_slice(block);
    }
}
