//! What a growth of a shape needs: stripes, transfers, blocks of a node, sizes; and which losses the grown store bears.

use crate::failure::Failure;
use crate::layout::{Layout, Use};
use crate::text::say;
use std::io::Write;
use taldrimsu::Shape;

pub fn print(out: &mut dyn Write, z: Shape) -> Result<(), Failure> {
    let (n, k, s, r) = (z.n, z.k, z.s, z.rows());
    writeln!(out, "shape {n} {k} {s}")?;
    writeln!(out, "                      before     after")?;
    pair(out, "nodes", n, z.nodes())?;
    pair(out, "data columns", k, k + s)?;
    pair(out, "parity rows", r, r)?;
    pair(out, "stripes", z.stripes(), z.kept())?;
    writeln!(out, "\nstripes of the growth")?;
    single(out, "kept", z.kept(), "")?;
    single(out, "straight", z.straight(), "of the kept ones")?;
    single(out, "swapped", z.kept() - z.straight(), "of the kept ones")?;
    single(out, "dissolved", z.dissolved(), "")?;
    single(out, "transfers moved", z.all_transfers(), &format!("{} for each kept stripe", z.transfers()))?;
    blocks(out, z)?;
    losses(out, z)?;
    writeln!(out, "\nsizes, for blocks of {} byte", z.b)?;
    single(out, "area", z.cells_len(), "bytes, times B for blocks of B bytes")?;
    single(out, "journal", z.book_len(), "words of 32 bits")?;
    single(out, "message", z.message_len(), "bytes, 16 and the block")?;
    single(out, "receipt", Shape::RECEIPT_LEN, "bytes")
}

/// Nodes of one kind have the same number of blocks, so one row stands for each kind.
fn blocks(out: &mut dyn Write, z: Shape) -> Result<(), Failure> {
    writeln!(out, "\nblocks of a node        data    parity     empty cells")?;
    for (when, layout) in [("before", Layout::before(z)), ("after", Layout::after(z))] {
        for (kind, node) in [("old", 0), ("new", z.n)] {
            let [data, parity, empty] = [Use::Data, Use::Parity, Use::Empty].map(|what| layout.count(node, what));
            let name = format!("{kind}, {when}");
            writeln!(out, "  {name:<16}{data:>10}{parity:>10}{empty:>16}")?;
        }
    }
    Ok(())
}

/// Whether the code of the grown store has a loss of r blocks that cannot be repaired. No loss of fewer blocks is one.
fn has_open_loss(z: Shape) -> bool {
    z.rows() >= 3 && z.k + z.s >= 4
}

fn losses(out: &mut dyn Write, z: Shape) -> Result<(), Failure> {
    let r = z.rows();
    let blocks = ["one block", "two blocks", "three blocks", "four blocks"][r - 1];
    let example = if r == 3 { "columns 0, 1 and 3" } else { "columns 0, 1 and 3 and parity row 3" };
    writeln!(out, "\nlosses of a grown stripe")?;
    if has_open_loss(z) {
        let open = format!("The grown code has losses of {blocks} that cannot be repaired: {example}, for example.");
        say(out, &format!("{open} Rebuild refuses them with 11."))
    } else if r == 1 {
        say(out, "Every loss of one block can be repaired.")
    } else {
        say(out, &format!("Every loss of up to {blocks} can be repaired."))
    }
}

fn pair(out: &mut dyn Write, name: &str, before: usize, after: usize) -> Result<(), Failure> {
    Ok(writeln!(out, "  {name:<16}{before:>10}{after:>10}")?)
}

fn single(out: &mut dyn Write, name: &str, number: usize, remark: &str) -> Result<(), Failure> {
    let line = format!("  {name:<16}{number:>10}  {remark}");
    Ok(writeln!(out, "{}", line.trim_end())?)
}

#[cfg(test)]
mod tests {
    use super::*;
    use taldrimsu::{rebuild, Refusal};

    /// Whether an intact stripe of k columns and r rows comes back from this loss, a bit for each lost block. Zeros serve as well as other
    /// contents: what can be repaired depends on the losses alone.
    fn repaired(k: usize, r: usize, lost: u32) -> bool {
        let losses: Vec<u8> = (0..k + r).map(|block| (lost >> block & 1) as u8).collect();
        match rebuild(k + r, k, 1, &mut vec![0; k + r], &losses) {
            Ok(_) => true,
            Err(Refusal::Ambiguous) => false,
            Err(refusal) => panic!("{refusal}"),
        }
    }

    /// Every loss of up to r blocks, for every shape in range.
    #[test]
    fn the_sentence_on_losses_is_true_of_every_shape() {
        for r in 1..=4 {
            for columns in 2..=20 - r {
                let open: Vec<u32> =
                    (0..1u32 << (columns + r)).filter(|lost| lost.count_ones() as usize <= r && !repaired(columns, r, *lost)).collect();
                let z = Shape { n: columns - 1 + r, k: columns - 1, s: 1, b: 1 };
                assert_eq!(has_open_loss(z), !open.is_empty(), "{columns} columns, {r} rows");
                assert!(open.iter().all(|lost| lost.count_ones() as usize == r));
                if has_open_loss(z) {
                    let row_3 = if r == 4 { 1 << (columns + 3) } else { 0 };
                    assert!(open.contains(&(0b1011 | row_3)));
                }
            }
        }
    }
}
