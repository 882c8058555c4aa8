//! The store node by node, as a table.

use crate::failure::Failure;
use crate::layout::{cells_of, Layout, Use};
use std::io::Write;
use taldrimsu::Shape;

pub fn print(out: &mut dyn Write, z: Shape, layout: &Layout, cells: &[u8]) -> Result<(), Failure> {
    writeln!(out, "  node  kind  data blocks  parity blocks  empty cells  bytes used  checksum")?;
    for node in 0..z.nodes() {
        let kind = if node < z.n { "old" } else { "new" };
        let [data, parity, empty] = [Use::Data, Use::Parity, Use::Empty].map(|what| layout.count(node, what));
        let used = (data + parity) * z.b;
        let own = cells_of(z, node);
        let sum = checksum(&cells[own.start * z.b..own.end * z.b]);
        writeln!(out, "  {node:>4}  {kind:<4}  {data:>11}  {parity:>13}  {empty:>11}  {used:>10}  {sum:08x}")?;
    }
    Ok(())
}

/// FNV-1a, 32 bits: it shows a reader at a glance that contents changed. No check depends on it; the checks compare bytes.
fn checksum(bytes: &[u8]) -> u32 {
    bytes.iter().fold(0x811C_9DC5, |sum, byte| (sum ^ u32::from(*byte)).wrapping_mul(0x0100_0193))
}
