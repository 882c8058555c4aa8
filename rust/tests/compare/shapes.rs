//! Random shapes, in range and out of it.

use crate::common::random::Random;
use taldrimsu::Shape;

/// How large stores are made.
pub struct Sizes {
    /// The most nodes of a grown store.
    pub widest: usize,
    pub blocks: &'static [usize],
}

const SHORT_BLOCKS: &[usize] = &[1, 1, 2, 3, 4, 7, 16];
pub const NARROW: Sizes = Sizes { widest: 8, blocks: SHORT_BLOCKS };
/// Up to the widest stores that there are.
pub const WIDE: Sizes = Sizes { widest: 20, blocks: SHORT_BLOCKS };
/// Lengths about the widths in which compiled code may take many bytes at once, and about 256.
pub const LONG_BLOCKS: Sizes = Sizes { widest: 6, blocks: &[31, 32, 33, 64, 65, 100, 255, 256, 257] };

/// A shape in range of these sizes.
pub fn any(random: &mut Random, sizes: &Sizes) -> Shape {
    let Sizes { widest, blocks } = *sizes;
    loop {
        let n = 2 + random.below(widest - 2);
        let rows = 1 + random.below(4.min(n - 1));
        let s = if random.one_in(5) { 1 + random.below(18) } else { 1 + random.below(3) };
        let b = random.pick(blocks);
        match Shape::new(n, n - rows, s, b) {
            Ok(z) if z.nodes() <= widest => return z,
            _ => continue,
        }
    }
}

/// The shape with one of its numbers made another, mostly a wrong one; the sums that a check makes may overflow.
pub fn spoilt(random: &mut Random, z: Shape) -> Shape {
    let any = random.pick(&[0, 1, 2, 3, 5, 19, 20, 21, 256, 4096, 4097, 1 << 32, usize::MAX / 2, usize::MAX - 3, usize::MAX]);
    match random.below(9) {
        0 => Shape { n: any, ..z },
        1 => Shape { k: any, ..z },
        2 => Shape { s: any, ..z },
        3 => Shape { b: any, ..z },
        4 => Shape { k: z.n, ..z },
        5 => Shape { s: 21 - z.n, ..z },
        6 => Shape { n: z.k + 5, ..z },
        7 => Shape { n: any, k: any.wrapping_sub(1), ..z },
        _ => {
            let b = random.pick(&[z.b, z.b, 0, 4097]);
            too_many_new_nodes(random, b)
        }
    }
}

/// A shape with s(r−1) > n and the other numbers but B in range.
fn too_many_new_nodes(random: &mut Random, b: usize) -> Shape {
    loop {
        let rows = 2 + random.below(3);
        let n = rows + 1 + random.below(8);
        let s = n / (rows - 1) + 1 + random.below(2);
        if n + s <= 20 {
            return Shape { n, k: n - rows, s, b };
        }
    }
}

/// Every mixture of numbers in range, about its ends and far from it.
pub fn mixtures() -> Vec<Shape> {
    let numbers: Vec<usize> = (0..=22).chain([256, 1 << 32, usize::MAX / 2, usize::MAX - 1, usize::MAX]).collect();
    let mut all = Vec::new();
    for &n in &numbers {
        for &k in &numbers {
            for &s in &numbers {
                all.extend([0, 1, 4096, 4097, usize::MAX].map(|b| Shape { n, k, s, b }));
            }
        }
    }
    all
}
