//! Rebuild against the model: equal answers and, byte for byte, equal stripes and loss bytes.

use crate::common::random::Random;
use crate::runs::{compare_rebuild, Seen};
use crate::{damage, model};

struct Case {
    n: usize,
    k: usize,
    b: usize,
    stripe: Vec<u8>,
    losses: Vec<u8>,
}

/// A true stripe of any code; up to two blocks more than it has rows are lost and hold anything.
fn damaged_stripe(random: &mut Random, b: usize) -> Case {
    let rows = 1 + random.below(4);
    let k = 1 + random.below(20 - rows);
    let n = k + rows;
    let data: Vec<Vec<u8>> = (0..k).map(|_| random.bytes(b)).collect();
    let parity = (0..rows).map(|j| model::row_sum(j, 0, &data, b));
    let mut stripe: Vec<u8> = data.iter().cloned().chain(parity).flatten().collect();
    let mut losses = vec![0; n];
    losses[..random.below(rows + 3).min(n)].fill(1);
    random.shuffle(&mut losses);
    for p in (0..n).filter(|&p| losses[p] == 1) {
        stripe[p * b..(p + 1) * b].copy_from_slice(&random.bytes(b));
    }
    Case { n, k, b, stripe, losses }
}

fn spoil(random: &mut Random, case: &mut Case) {
    if random.one_in(4) {
        let place = random.below(case.stripe.len());
        case.stripe[place] ^= 1 << random.below(8);
    }
    if random.one_in(12) {
        let place = random.below(case.n);
        case.losses[place] = random.pick(&[2, 3, 128, 255]);
    }
    if random.one_in(12) {
        damage::length(random, &mut case.stripe);
    }
    if random.one_in(12) {
        damage::length(random, &mut case.losses);
    }
    if random.one_in(12) {
        spoil_code(random, case);
    }
}

fn spoil_code(random: &mut Random, case: &mut Case) {
    let any = random.pick(&[0, 1, 5, 20, 21, 4096, 4097, 1 << 32, usize::MAX / 2, usize::MAX]);
    match random.below(6) {
        0 => case.n = any,
        1 => case.k = any,
        2 => case.b = any,
        3 => case.k = case.n,
        4 => case.n = case.k + 5,
        _ => (case.n, case.k) = (any, any.wrapping_sub(1)),
    }
}

fn run(seed: u64, cases: usize, sizes: &[usize]) -> Seen {
    let mut random = Random::new(seed);
    let mut seen = Seen::new();
    for _ in 0..cases {
        let b = random.pick(sizes);
        let mut case = damaged_stripe(&mut random, b);
        spoil(&mut random, &mut case);
        seen.insert(compare_rebuild(case.n, case.k, case.b, &case.stripe, &case.losses));
    }
    seen
}

/// The answer codes that document 01 lets rebuild give are seen, and no others: 0 done, else the refusal's number.
#[test]
fn damaged_stripes() {
    let mut seen = run(21, 40_000, &[1, 2, 3, 8, 31]);
    seen.extend(run(22, 200, &[64, 65, 1023, 4095, 4096]));
    assert_eq!(seen, Seen::from([0, 1, 3, 5, 11, 12]));
}

/// Every way to lose blocks of the codes of up to 8 blocks, and of some wide ones up to 4 blocks.
#[test]
fn every_loss() {
    let mut random = Random::new(23);
    let codes = (2..=8).flat_map(|n| (1..n).map(move |k| (n, k))).filter(|(n, k)| n - k <= 4);
    for (n, k) in codes.chain([(12, 8), (13, 10)]) {
        for set in (0..1u32 << n).filter(|set| n <= 8 || set.count_ones() <= 4) {
            let data: Vec<Vec<u8>> = (0..k).map(|_| random.bytes(2)).collect();
            let parity = (0..n - k).map(|j| model::row_sum(j, 0, &data, 2));
            let stripe: Vec<u8> = data.iter().cloned().chain(parity).flatten().collect();
            let losses: Vec<u8> = (0..n).map(|p| (set >> p & 1) as u8).collect();
            let code = compare_rebuild(n, k, 2, &stripe, &losses);
            let lost = set.count_ones() as usize;
            assert!(code == 11 || code == 0 && lost <= n - k, "({n}, {k}) losses {losses:?}: {code}");
        }
    }
}
