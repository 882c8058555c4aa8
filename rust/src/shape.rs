//! The shape of a growth, and the lengths that it gives.

use crate::Refusal;

/// A shape: a store of `n` nodes whose stripes have `k` data blocks grows by `s` nodes; blocks have `b` bytes.
///
/// [`Shape::new`] gives shapes in range only. A shape written down with its fields may be out of range: then every call refuses it, and its
/// other numbers, those of the methods below, have no meaning and may panic.
#[derive(Clone, Copy, Debug, PartialEq, Eq, Hash)]
pub struct Shape {
    /// Old nodes; also the blocks of an old stripe.
    pub n: usize,
    /// Data columns of an old stripe.
    pub k: usize,
    /// New nodes.
    pub s: usize,
    /// Bytes of a block, the paper's B.
    pub b: usize,
}

impl Shape {
    /// Bytes of a receipt.
    pub const RECEIPT_LEN: usize = 16;

    /// The shape with these numbers, if it is in range.
    pub fn new(n: usize, k: usize, s: usize, b: usize) -> Result<Shape, Refusal> {
        let z = Shape { n, k, s, b };
        z.check().map(|()| z)
    }

    /// Whether the shape is in range: refusals 1 and 2, as every call gives them.
    pub fn check(&self) -> Result<(), Refusal> {
        let Shape { n, k, s, b } = *self;
        // n and s are bounded one by one before they are added, so that no sum overflows.
        let nodes = n <= 20 && (1..=20).contains(&s) && n + s <= 20;
        let columns = 1 <= k && k < n && n - k <= 4;
        if !(nodes && columns && (1..=4096).contains(&b)) {
            return Err(Refusal::Shape);
        }
        if s * (n - k - 1) > n {
            return Err(Refusal::TooManyNewNodes);
        }
        Ok(())
    }

    /// Parity rows of a stripe, r = n−k; growth keeps their number.
    pub fn rows(&self) -> usize {
        self.n - self.k
    }

    /// Nodes of the grown store, n+s.
    pub fn nodes(&self) -> usize {
        self.n + self.s
    }

    /// Kept stripes of a group, P = nk(n+s); also the slots of a new node and the stripes of the grown store.
    pub fn kept(&self) -> usize {
        self.n * self.k * self.nodes()
    }

    /// Dissolved stripes of a group, ns(n+s).
    pub fn dissolved(&self) -> usize {
        self.n * self.s * self.nodes()
    }

    /// All stripes of a group before the growth, G; also the slots of an old node.
    pub fn stripes(&self) -> usize {
        self.kept() + self.dissolved()
    }

    /// Straight stripes, T: kept stripes from T on are swapped.
    pub fn straight(&self) -> usize {
        self.n * self.k * (self.n - self.s * (self.rows() - 1))
    }

    /// Transfers of a kept stripe, s+r−1.
    pub fn transfers(&self) -> usize {
        self.s + self.rows() - 1
    }

    /// Transfers of a whole growth, P(s+r−1).
    pub fn all_transfers(&self) -> usize {
        self.kept() * self.transfers()
    }

    /// Bytes of the area of all cells, (nG+sP)B.
    pub fn cells_len(&self) -> usize {
        (self.n * self.stripes() + self.s * self.kept()) * self.b
    }

    /// Words of the journal, 4+2P.
    pub fn book_len(&self) -> usize {
        4 + 2 * self.kept()
    }

    /// Bytes of a message, B+16.
    pub fn message_len(&self) -> usize {
        self.b + 16
    }

    /// Bytes of drive's space, B+32: a message and a receipt.
    pub fn drive_space_len(&self) -> usize {
        self.message_len() + Self::RECEIPT_LEN
    }

    /// Bytes of an old stripe as rebuild takes it, nB.
    pub fn stripe_len(&self) -> usize {
        self.n * self.b
    }

    /// Bytes of a stripe of the grown store as rebuild takes it, (n+s)B.
    pub fn grown_stripe_len(&self) -> usize {
        self.nodes() * self.b
    }
}
