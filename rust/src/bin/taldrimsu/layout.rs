//! What each cell of the area is for, before and after the growth, and the checks that a table of numbers cannot make.

use crate::failure::{ensure, refused, Failure};
use crate::store::Store;
use crate::stripe::{cell, Place};
use std::ops::Range;
use taldrimsu::{locate, Shape};

#[derive(Clone, Copy, PartialEq, Eq)]
pub enum Use {
    Empty,
    Data,
    Parity,
}

pub struct Layout {
    z: Shape,
    /// By the number of the cell in the area.
    uses: Vec<Use>,
}

impl Layout {
    pub fn before(z: Shape) -> Layout {
        let stripes = 0..z.stripes();
        let data = stripes.clone().flat_map(|g| (0..z.k).map(move |d| z.data_place(g, d)));
        let parity = stripes.flat_map(|g| (0..z.rows()).map(move |j| z.parity_place(g, j)));
        Layout::of(z, data, parity)
    }

    pub fn after(z: Shape) -> Layout {
        let stripes = 0..z.kept();
        let data = stripes.clone().flat_map(|w| (0..z.k + z.s).map(move |c| z.new_data_place(w, c)));
        let parity = stripes.flat_map(|w| (0..z.rows()).map(move |j| z.new_parity_place(w, j)));
        Layout::of(z, data, parity)
    }

    fn of(z: Shape, data: impl Iterator<Item = Place>, parity: impl Iterator<Item = Place>) -> Layout {
        let mut uses = vec![Use::Empty; z.cells_len() / z.b];
        for place in data {
            uses[cell(z, place).start / z.b] = Use::Data;
        }
        for place in parity {
            uses[cell(z, place).start / z.b] = Use::Parity;
        }
        Layout { z, uses }
    }

    /// How many cells of a node have this use.
    pub fn count(&self, node: usize, what: Use) -> usize {
        self.uses[cells_of(self.z, node)].iter().filter(|own| **own == what).count()
    }

    /// The cells, as numbers in the area, that hold nothing.
    pub fn empty(&self) -> impl Iterator<Item = usize> + '_ {
        (0..self.uses.len()).filter(|number| self.uses[*number] == Use::Empty)
    }

    /// Every node has the same number of data blocks, and of parity blocks: nk(k+s) and nkr.
    pub fn ensure_even(&self) -> Result<(usize, usize), Failure> {
        let Shape { n, k, s, .. } = self.z;
        let (data, parity) = (n * k * (k + s), n * k * self.z.rows());
        for node in 0..self.z.nodes() {
            let own = (self.count(node, Use::Data), self.count(node, Use::Parity));
            ensure(own == (data, parity), || {
                format!("node {node} has {} data and {} parity blocks, not {data} and {parity}", own.0, own.1)
            })?;
        }
        Ok((data, parity))
    }

    /// Cells that hold nothing are zero; tells how many there are.
    pub fn ensure_empty_is_zero(&self, cells: &[u8]) -> Result<usize, Failure> {
        let b = self.z.b;
        let left = self.empty().find(|number| cells[number * b..(number + 1) * b].iter().any(|byte| *byte != 0));
        match left {
            Some(number) => Err(Failure::failed(format!("the empty cell {number} of the area is not zero"))),
            None => Ok(self.empty().count()),
        }
    }

    /// The library finds every old block in a data cell, no two in the same; tells how many blocks there are.
    pub fn ensure_each_block_once(&self, store: &Store) -> Result<usize, Failure> {
        let z = self.z;
        let mut taken = vec![false; self.uses.len()];
        for number in 0..z.stripes() * z.k {
            let (g, d) = (number / z.k, number % z.k);
            let own = locate(z, &store.cells, &store.journal, g, d).map_err(refused("read"))? / z.b;
            ensure(self.uses[own] == Use::Data, || format!("column {d} of stripe {g} is found in a cell that is not for data"))?;
            ensure(!taken[own], || format!("column {d} of stripe {g} is found in the cell of another block"))?;
            taken[own] = true;
        }
        Ok(z.stripes() * z.k)
    }
}

/// A node's cells, as numbers in the area: an old node has a slot for each old stripe, a new one for each kept stripe.
pub fn cells_of(z: Shape, node: usize) -> Range<usize> {
    let first = z.cell_offset(node, 0) / z.b;
    first..first + if node < z.n { z.stripes() } else { z.kept() }
}

#[cfg(test)]
mod tests {
    use super::*;
    use crate::testing::grown;

    #[test]
    fn an_uneven_layout_is_found() {
        let z = Shape::new(4, 2, 1, 64).unwrap();
        assert_eq!(Layout::after(z).ensure_even().unwrap(), (24, 16));
        let failure = Layout::before(z).ensure_even().unwrap_err();
        assert_eq!(failure.line, "node 0 has 30 data and 30 parity blocks, not 24 and 16");
    }

    #[test]
    fn a_byte_in_an_empty_cell_is_found() {
        let mut store = grown(4, 2, 1);
        let layout = Layout::after(store.z);
        assert_eq!(layout.ensure_empty_is_zero(&store.cells).unwrap(), 80);
        let last = layout.empty().last().unwrap();
        store.cells[last * 64 + 63] = 1;
        assert!(layout.ensure_empty_is_zero(&store.cells).is_err());
    }

    #[test]
    fn a_block_outside_the_data_cells_is_found() {
        let store = grown(4, 2, 1);
        assert_eq!(Layout::after(store.z).ensure_each_block_once(&store).unwrap(), 120);
        assert!(Layout::before(store.z).ensure_each_block_once(&store).is_err());
    }
}
