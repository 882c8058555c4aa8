//! What adding a repeated change twice would have done, on a copy of one stripe. The library does not let it happen, so the program
//! adds it.

use crate::failure::{ensure, refused, Failure};
use crate::loss::list;
use crate::repeat::{Repeat, SHOWN};
use crate::store::Store;
use crate::stripe::places;
use crate::text::say;
use crate::trace::{samples, SAMPLE};
use std::io::Write;
use taldrimsu::{rebuild, Refusal};

/// The row that the repeated message changes.
const ROW: usize = 1;

pub fn show(out: &mut dyn Write, store: &Store, repeat: &Repeat) -> Result<(), Failure> {
    let z = store.z;
    let losses = losses(store);
    let dead: Vec<usize> = places(z, repeat.w).iter().zip(&losses).filter(|(_, loss)| **loss == 1).map(|(place, _)| place.0).collect();
    let wrong = twice(store, repeat);
    let stored = &store.stored[repeat.w * z.k * z.b..][..z.b];
    let here = first_column(store, &repeat.stripe, &losses)?;
    let there = first_column(store, &wrong, &losses)?;
    ensure(here == stored, || format!("column 0 of stripe {} is not rebuilt as it was stored", repeat.w))?;
    ensure(there != stored, || format!("column 0 of stripe {} came out right in spite of a wrong parity row", repeat.w))?;

    let Repeat { w, receiver, .. } = repeat;
    say(out, &format!("The change of parity row {ROW} of stripe {w} came to node {receiver} once more."))?;
    say(out, &format!("On a copy of that stripe it is added again, and later nodes {} die.", list(&dead)))?;
    writeln!(out, "\n  {}, in newtons:", what_is_shown(store, repeat.w))?;
    line(out, "stored first", stored)?;
    line(out, "repeat added twice", &there)?;
    line(out, "repeat as the library has it", &here)?;
    writeln!(out)?;
    let bad = (0..z.b).filter(|at| there[*at] != stored[*at]).count();
    say(out, &format!("Added twice: rebuilt without any refusal, and {bad} of the block's {} bytes are wrong.", z.b))?;
    notices(out, store, &wrong)?;
    say(out, &format!("Here: the library answered the same repeat with 'already' and changed none of the {} bytes.", store.cells.len()))
}

/// As many lost blocks as the code can bear: column 0, and all rows but the changed one. So nothing is left to compare with.
fn losses(store: &Store) -> Vec<u8> {
    let columns = store.z.k + store.z.s;
    (0..store.z.nodes()).map(|block| u8::from(block == 0 || (block >= columns && block != columns + ROW))).collect()
}

/// The stripe with the change added to its row once more, byte by byte.
fn twice(store: &Store, repeat: &Repeat) -> Vec<u8> {
    let start = (store.z.k + store.z.s + ROW) * store.z.b;
    let mut stripe = repeat.stripe.clone();
    for (byte, change) in stripe[start..].iter_mut().zip(&repeat.change) {
        *byte ^= change;
    }
    stripe
}

/// Column 0 as it comes out of a rebuild.
fn first_column(store: &Store, stripe: &[u8], losses: &[u8]) -> Result<Vec<u8>, Failure> {
    let z = store.z;
    let mut stripe = stripe.to_vec();
    stripe[..z.b].fill(0);
    rebuild(z.nodes(), z.k + z.s, z.b, &mut stripe, losses).map_err(refused("rebuild"))?;
    Ok(stripe[..z.b].to_vec())
}

/// With more blocks than it needs rebuild can compare, and it refuses.
fn notices(out: &mut dyn Write, store: &Store, wrong: &[u8]) -> Result<(), Failure> {
    let z = store.z;
    let answer = rebuild(z.nodes(), z.k + z.s, z.b, &mut wrong.to_vec(), &vec![0; z.nodes()]);
    ensure(answer == Err(Refusal::Inconsistent), || "a wrong parity row passes for a right one with every block present".into())?;
    say(out, &format!("With no block lost rebuild would have noticed: refused (12), {}.", Refusal::Inconsistent))
}

/// The trace and the samples at the start of column 0 of a stripe.
fn what_is_shown(store: &Store, w: usize) -> String {
    let start = w * store.z.k * store.z.b;
    let trace = store.trace_at(start);
    let first = (start - trace.bytes.start) / SAMPLE;
    format!("{}, samples {first} to {}", trace.name, first + SHOWN - 1)
}

fn line(out: &mut dyn Write, name: &str, block: &[u8]) -> Result<(), Failure> {
    let shown: String = samples(&block[..SHOWN * SAMPLE]).iter().map(|force| format!("{force:>6}")).collect();
    Ok(writeln!(out, "  {name:<29}{shown}")?)
}

#[cfg(test)]
mod tests {
    use super::*;
    use crate::repeat;
    use crate::testing::{begun, change_of};
    use taldrimsu::drive;

    /// A grown store, and the repeat of a change of its stripe 15.
    fn repeated() -> (Store, Repeat) {
        let mut store = begun(4, 2, 1);
        let message = change_of(&mut store, 15);
        drive(store.z, &mut store.cells, &mut store.journal, store.z.all_transfers(), &mut vec![0; store.z.drive_space_len()]).unwrap();
        let repeat = repeat::repeat(&mut store, message).unwrap();
        (store, repeat)
    }

    #[test]
    fn a_mistake_without_effect_is_found() {
        let (store, mut shown) = repeated();
        show(&mut Vec::new(), &store, &shown).unwrap();
        shown.change.fill(0);
        let failure = show(&mut Vec::new(), &store, &shown).unwrap_err();
        assert_eq!(failure.line, "column 0 of stripe 15 came out right in spite of a wrong parity row");
    }

    #[test]
    fn a_stripe_that_is_not_rebuilt_is_found() {
        let (store, mut shown) = repeated();
        shown.stripe[store.z.b] ^= 1;
        let failure = show(&mut Vec::new(), &store, &shown).unwrap_err();
        assert_eq!(failure.line, "column 0 of stripe 15 is not rebuilt as it was stored");
    }
}
