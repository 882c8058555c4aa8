//! Force traces of brake tests, made up from the seed: a brake is pressed, held and let go, again and again.

use crate::chance::Chance;
use std::ops::Range;

/// Bytes of a sample, an unsigned number of newtons, low byte first.
pub const SAMPLE: usize = 2;

/// Names of the traces, each with its highest force in newtons and its share, in 32nds, of the store's data blocks. One share is
/// left over, so that some blocks stay empty.
const TRACES: [(&str, usize, usize); 4] = [
    ("lane 1, left front brake", 2900, 9),
    ("lane 1, right front brake", 2750, 8),
    ("lane 2, left rear brake", 1800, 8),
    ("lane 2, parking brake", 1300, 6),
];
const SHARES: usize = 32;

/// One trace: its samples are the bytes in this range of all data of the store. It starts with a block of its own.
pub struct Trace {
    pub name: &'static str,
    pub bytes: Range<usize>,
}

/// The traces for a store of so many data blocks of `b` bytes, and all data of that store: the traces, and zeros where there is none.
pub fn make(blocks: usize, b: usize, chance: &mut Chance) -> (Vec<Trace>, Vec<u8>) {
    let mut stored = vec![0; blocks * b];
    let mut traces = Vec::new();
    let mut first = 0;
    for (name, peak, shares) in TRACES {
        let own = blocks * shares / SHARES;
        // The last block is not full, as with a real trace.
        let len = own * b - SAMPLE * (1 + chance.below(b / SAMPLE - 1));
        let bytes = first * b..first * b + len;
        write_samples(&mut stored[bytes.clone()], peak, chance);
        traces.push(Trace { name, bytes });
        first += own;
    }
    (traces, stored)
}

fn write_samples(bytes: &mut [u8], peak: usize, chance: &mut Chance) {
    for (at, sample) in bytes.chunks_exact_mut(SAMPLE).enumerate() {
        let noise = chance.below(9);
        sample.copy_from_slice(&((force(at, peak) + noise) as u16).to_le_bytes());
    }
}

/// The force at a sample: idle, a rise, a hold with the ripple of a drum that is not quite round, a fall, idle.
fn force(at: usize, peak: usize) -> usize {
    let held = peak * 24 / 25;
    match at % 150 {
        moment @ 10..=49 => held * (moment - 10) / 40,
        moment @ 50..=119 => held + peak / 25 * (moment % 16).abs_diff(8) / 8,
        moment @ 120..=139 => held * (140 - moment) / 20,
        _ => 0,
    }
}

/// The samples in these bytes, in newtons.
pub fn samples(bytes: &[u8]) -> Vec<u16> {
    bytes.chunks_exact(SAMPLE).map(|pair| u16::from_le_bytes([pair[0], pair[1]])).collect()
}
