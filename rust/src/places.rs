//! Where blocks stand: the layout before and after the growth.
//!
//! A place is a node and a slot of it. All of a stripe's blocks stand in the slot of the stripe's own number, before and after.
//! The methods panic if a number is out of range.

use crate::Shape;

fn in_range(what: &str, number: usize, bound: usize) {
    assert!(number < bound, "{what} {number} is out of range, there are {bound}");
}

impl Shape {
    /// The offset in the area of the first byte of a node's slot. Nodes stand in order, each with its slots in order; an old node has
    /// [`stripes`](Shape::stripes) slots, a new one [`kept`](Shape::kept).
    pub fn cell_offset(&self, node: usize, slot: usize) -> usize {
        in_range("node", node, self.nodes());
        in_range("slot", slot, if node < self.n { self.stripes() } else { self.kept() });
        let old_nodes = node.min(self.n);
        let new_nodes = node - old_nodes;
        (old_nodes * self.stripes() + new_nodes * self.kept() + slot) * self.b
    }

    /// Data column `d` of old stripe `g` before the growth: node (g+r+d) mod n, slot g.
    pub fn data_place(&self, g: usize, d: usize) -> (usize, usize) {
        in_range("stripe", g, self.stripes());
        in_range("column", d, self.k);
        ((g + self.rows() + d) % self.n, g)
    }

    /// Parity row `j` of old stripe `g` before the growth: node (g+j) mod n, slot g.
    pub fn parity_place(&self, g: usize, j: usize) -> (usize, usize) {
        in_range("stripe", g, self.stripes());
        in_range("parity row", j, self.rows());
        ((g + j) % self.n, g)
    }

    /// Column `c` of stripe `w` of the grown store: columns below k stay where they were; column k+t is new block t, on node n+t, but
    /// for new block y of a swapped stripe, which takes the place that row 0 had.
    pub fn new_data_place(&self, w: usize, c: usize) -> (usize, usize) {
        in_range("stripe", w, self.kept());
        in_range("column", c, self.k + self.s);
        if c < self.k {
            return self.data_place(w, c);
        }
        let t = c - self.k;
        if self.swapped_block(w) == Some(t) {
            return self.parity_place(w, 0);
        }
        (self.n + t, w)
    }

    /// Parity row `j` of stripe `w` of the grown store: where it was, but for row 0 of a swapped stripe, which is on node n+y.
    pub fn new_parity_place(&self, w: usize, j: usize) -> (usize, usize) {
        in_range("stripe", w, self.kept());
        in_range("parity row", j, self.rows());
        match self.swapped_block(w) {
            Some(y) if j == 0 => (self.n + y, w),
            _ => self.parity_place(w, j),
        }
    }

    /// y of a swapped stripe, the new block that changes places with row 0; nothing of a straight one.
    fn swapped_block(&self, w: usize) -> Option<usize> {
        w.checked_sub(self.straight()).map(|past| past % self.s)
    }
}
