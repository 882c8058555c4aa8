//! A store: its cells, its journal, and what was stored first, kept apart so that everything can be compared with it.

use crate::chance::Chance;
use crate::failure::{ensure, refused, Failure};
use crate::stripe::{cell, lift};
use crate::trace::{self, Trace};
use std::ops::Range;
use taldrimsu::{encode, read, rebuild, Shape};

pub struct Store {
    pub z: Shape,
    pub cells: Vec<u8>,
    pub journal: Vec<u32>,
    pub traces: Vec<Trace>,
    /// All data as they were stored first: block after block, the columns of stripe 0, those of stripe 1, and so on.
    pub stored: Vec<u8>,
}

impl Store {
    /// A store with traces, encoded. Its growth has not begun.
    pub fn with_traces(z: Shape, chance: &mut Chance) -> Result<Store, Failure> {
        let (traces, stored) = trace::make(z.stripes() * z.k, z.b, chance);
        let mut cells = vec![0; z.cells_len()];
        for (number, block) in stored.chunks_exact(z.b).enumerate() {
            cells[cell(z, z.data_place(number / z.k, number % z.k))].copy_from_slice(block);
        }
        encode(z, &mut cells).map_err(refused("encode"))?;
        Ok(Store { z, cells, journal: vec![0; z.book_len()], traces, stored })
    }

    /// The trace whose blocks have this byte of all data. The first one starts at byte 0; what is left over counts to the last.
    pub fn trace_at(&self, at: usize) -> &Trace {
        &self.traces[self.traces.partition_point(|trace| trace.bytes.start <= at) - 1]
    }

    /// Reads every block of a trace and compares it with what was stored first; tells how many bytes were compared.
    pub fn compare(&self, trace: &Trace) -> Result<usize, Failure> {
        self.compare_bytes(trace.name, trace.bytes.clone())
    }

    /// Compares all traces.
    pub fn compare_traces(&self) -> Result<usize, Failure> {
        self.traces.iter().map(|trace| self.compare(trace)).sum()
    }

    /// Compares what is no trace: the unused ends of blocks and the empty blocks must still be zero.
    pub fn compare_rest(&self) -> Result<usize, Failure> {
        let starts = self.traces.iter().map(|trace| trace.bytes.end);
        let ends = self.traces.iter().skip(1).map(|trace| trace.bytes.start).chain([self.stored.len()]);
        starts.zip(ends).map(|(start, end)| self.compare_bytes("data without a trace", start..end)).sum()
    }

    fn compare_bytes(&self, name: &str, bytes: Range<usize>) -> Result<usize, Failure> {
        let Shape { k, b, .. } = self.z;
        for number in bytes.start / b..bytes.end.div_ceil(b) {
            let block = read(self.z, &self.cells, &self.journal, number / k, number % k).map_err(refused("read"))?;
            for at in bytes.start.max(number * b)..bytes.end.min((number + 1) * b) {
                let (was, is) = (self.stored[at], block[at % b]);
                ensure(was == is, || format!("{name}: byte {} was {was:02x} and is {is:02x}", at - bytes.start))?;
            }
        }
        Ok(bytes.len())
    }

    /// Encodes every stripe of the grown store afresh and compares its parity cells with that; tells how many there are.
    ///
    /// Fresh encoding is what rebuild makes of the columns alone when all rows are lost.
    pub fn compare_parity(&self) -> Result<usize, Failure> {
        let z = self.z;
        let columns = z.k + z.s;
        let losses: Vec<u8> = (0..z.nodes()).map(|block| u8::from(block >= columns)).collect();
        for w in 0..z.kept() {
            let held = lift(z, &self.cells, w);
            let mut fresh = held.clone();
            fresh[columns * z.b..].fill(0);
            rebuild(z.nodes(), columns, z.b, &mut fresh, &losses).map_err(refused("rebuild of all parity rows"))?;
            ensure(held == fresh, || format!("a parity row of stripe {w} is not what its columns give"))?;
        }
        Ok(z.kept() * z.rows())
    }
}

#[cfg(test)]
mod tests {
    use super::*;
    use crate::testing::grown;
    use taldrimsu::locate;

    /// The byte of the area that is this byte of all data.
    fn place_of(store: &Store, at: usize) -> usize {
        let Shape { k, b, .. } = store.z;
        locate(store.z, &store.cells, &store.journal, at / b / k, at / b % k).unwrap() + at % b
    }

    #[test]
    fn a_changed_byte_of_a_trace_is_found() {
        let mut store = grown(4, 2, 1);
        let all: usize = store.traces.iter().map(|trace| trace.bytes.len()).sum();
        assert_eq!(store.compare_traces().unwrap(), all);
        for number in 0..store.traces.len() {
            for at in [store.traces[number].bytes.start, store.traces[number].bytes.end - 1] {
                let place = place_of(&store, at);
                store.cells[place] ^= 1;
                let failure = store.compare(&store.traces[number]).unwrap_err();
                let byte = at - store.traces[number].bytes.start;
                assert!(failure.line.starts_with(&format!("{}: byte {byte} was", store.traces[number].name)));
                assert!(store.compare_traces().is_err());
                store.cells[place] ^= 1;
            }
        }
        assert_eq!(store.compare_traces().unwrap(), all);
    }

    #[test]
    fn a_changed_byte_without_a_trace_is_found() {
        let mut store = grown(4, 2, 1);
        let all: usize = store.traces.iter().map(|trace| trace.bytes.len()).sum();
        assert_eq!(store.compare_rest().unwrap(), store.stored.len() - all);
        let place = place_of(&store, store.stored.len() - 1);
        store.cells[place] ^= 1;
        assert!(store.compare_rest().is_err());
    }

    #[test]
    fn a_changed_parity_byte_is_found() {
        let mut store = grown(4, 2, 1);
        assert_eq!(store.compare_parity().unwrap(), store.z.kept() * store.z.rows());
        for w in [0, store.z.kept() - 1] {
            for j in 0..store.z.rows() {
                let range = cell(store.z, store.z.new_parity_place(w, j));
                store.cells[range.start] ^= 1;
                assert!(store.compare_parity().is_err());
                store.cells[range.start] ^= 1;
            }
        }
    }
}
