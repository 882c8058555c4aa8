//! The calls, as safe functions on slices.
//!
//! All lengths are exact, and [`Shape`] computes them. A refused call writes nothing. Which refusal comes first where several apply
//! is fixed: 1, 2, 3, 4, 13, 5, 9, 10, 6, 7, 8, 11, 12.

use crate::{answer, raw, Drive, Refusal, Shape, Status, Step};

/// Writes the parity cells of every stripe of the old store, and nothing else.
pub fn encode(z: Shape, cells: &mut [u8]) -> Result<(), Refusal> {
    answer::done(raw::encode(z, cells))
}

/// Begins the growth with this number (below 2^28): verifies every stripe of the old store, zeroes the new nodes, writes a fresh journal.
///
/// What new nodes and journal held before does not matter. Two growths whose messages might meet need different numbers.
pub fn begin(z: Shape, cells: &mut [u8], book: &mut [u32], number: usize) -> Result<(), Refusal> {
    answer::done(raw::begin(z, cells, book, number))
}

/// Adds the change to parity row 0 of kept stripe `w`, at its sender, node w mod n. Must precede its sends.
pub fn compute(z: Shape, cells: &mut [u8], book: &mut [u32], w: usize) -> Result<Step, Refusal> {
    answer::step(raw::compute(z, cells, book, w))
}

/// Writes the message of transfer `e` of kept stripe `w`, at its sender. It can be sent as often as the link needs it, until release.
pub fn send(z: Shape, cells: &[u8], book: &[u32], w: usize, e: usize, message: &mut [u8]) -> Result<(), Refusal> {
    answer::done(raw::send(z, cells, book, w, e, message))
}

/// Takes a message at a node, adds its change or stores its block there, and writes the receipt.
///
/// A repeated message changes nothing else; its receipt is written again and the answer is [`Step::Already`].
pub fn deliver(z: Shape, cells: &mut [u8], book: &mut [u32], node: usize, message: &[u8], receipt: &mut [u8]) -> Result<Step, Refusal> {
    answer::step(raw::deliver(z, cells, book, node, message, receipt))
}

/// Takes a receipt at a node, the sender of its message.
pub fn receipt(z: Shape, book: &mut [u32], node: usize, receipt: &[u8]) -> Result<Step, Refusal> {
    answer::step(raw::receipt(z, book, node, receipt))
}

/// Releases kept stripe `w` when all its transfers are receipted: makes the swap's local move, if the stripe is swapped, and zeroes the
/// dissolved cells that its new blocks came from.
pub fn release(z: Shape, cells: &mut [u8], book: &mut [u32], w: usize) -> Result<Step, Refusal> {
    answer::step(raw::release(z, cells, book, w))
}

/// Ends the growth when every stripe is released: zeroes the cells of the dissolved stripes.
pub fn close(z: Shape, cells: &mut [u8], book: &mut [u32]) -> Result<(), Refusal> {
    answer::done(raw::close(z, cells, book))
}

/// Tests the whole journal and tells state and count.
pub fn status(z: Shape, book: &[u32]) -> Result<Status, Refusal> {
    answer::status(raw::status(z, book))
}

/// Where data column `d` of old stripe `g` now is: the offset in `cells` of its first byte. It works from [`begin`] on, as [`read`] does.
pub fn locate(z: Shape, cells: &[u8], book: &[u32], g: usize, d: usize) -> Result<usize, Refusal> {
    answer::done_with(raw::read(z, cells, book, g, d))
}

/// Data column `d` of old stripe `g`, as the part of `cells` where it now is: from [`begin`] on, during the growth and after it.
///
/// Before begin there is no journal to tell where the block is; [`Shape::data_place`] does.
pub fn read<'a>(z: Shape, cells: &'a [u8], book: &[u32], g: usize, d: usize) -> Result<&'a [u8], Refusal> {
    let start = locate(z, cells, book, g, d)?;
    Ok(&cells[start..start + z.b])
}

/// Drives the growth on: takes stripes by rising w, computes, sends, delivers and receipts each unreceipted transfer by rising e, releases.
///
/// It newly accepts at most `limit` transfers and goes on with what needs no more of them (receipts, releases, computes), until a further
/// unaccepted transfer stops it ([`Drive::Spent`]) or every stripe is released ([`Drive::Finished`]). It does not close.
///
/// `space` is left with the last message sent and, in its last 16 bytes, its receipt; it is left as it was if no message was sent.
pub fn drive(z: Shape, cells: &mut [u8], book: &mut [u32], limit: usize, space: &mut [u8]) -> Result<Drive, Refusal> {
    answer::drive(raw::drive(z, cells, book, limit, space))
}

/// Writes the lost blocks of one stripe of n blocks (k columns, then the rows) and tells how many they were.
///
/// `losses` has a byte for each block, 1 for lost and 0 for present. A grown stripe is rebuilt with n+s and k+s for `n` and `k`.
///
/// # In the middle of a growth
///
/// A kept stripe that is computed and not yet released is between two codes. Rebuild does not look at the journal: for such a
/// stripe it can answer `Ok` with wrong bytes, with n and k as well as with n+s and k+s. Tried on (6,4,2), all 192 stripes computed
/// and nothing sent: after the loss of any two old nodes, rebuild with n and k answered `Ok` for every stripe, and 128 had wrong
/// data. The library has no call for such a stripe yet. Keep few stripes computed and unreleased, as [`drive`] does. Rebuild a kept
/// stripe that is not computed with n and k, and a released one with n+s and k+s.
pub fn rebuild(n: usize, k: usize, b: usize, stripe: &mut [u8], losses: &[u8]) -> Result<usize, Refusal> {
    answer::done_with(raw::rebuild(n, k, b, stripe, losses))
}
