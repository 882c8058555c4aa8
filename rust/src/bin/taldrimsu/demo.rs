//! The demonstration, section by section.

use crate::chance::Chance;
use crate::failure::Failure;
use crate::growth::{grow, Grown, AGAIN, BY_CHANCE, DRIVE};
use crate::layout::Layout;
use crate::link::{LOST, MISDIRECTED, REPEATED};
use crate::loss::{kill_and_rebuild, list};
use crate::progress::Progress;
use crate::repeat::Repeat;
use crate::store::Store;
use crate::text::{ok, say, section};
use crate::trace::{samples, SAMPLE};
use crate::{mistake, table};
use std::io::Write;
use taldrimsu::Shape;

pub fn run(out: &mut dyn Write, terminal: bool, z: Shape, seed: u64) -> Result<(), Failure> {
    let mut chance = Chance::new(seed);
    let mut store = Store::with_traces(z, &mut chance.branch())?;
    writeln!(out, "Taldrimsu: a store of {} nodes grows to {}", z.n, z.nodes())?;
    writeln!(out, "(shape {} {} {}, seed {seed})", z.n, z.k, z.s)?;
    traces(out, &store)?;
    before(out, &store)?;
    let repeat = growth(out, terminal, &mut store, &mut chance.branch())?;
    after(out, &store)?;
    loss(out, &mut store, &mut chance.branch())?;
    comparison(out, &store)?;
    old_mistake(out, &store, repeat)?;
    Ok(writeln!(out, "\nEvery check held.")?)
}

fn traces(out: &mut dyn Write, store: &Store) -> Result<(), Failure> {
    let b = store.z.b;
    let sentence = format!(
        "Force over time of brake tests, 16-bit samples in newtons, cut into blocks of {b} bytes. These are the bytes that must \
         never be lost."
    );
    section(out, "1. The traces", &sentence)?;
    writeln!(out, "  trace                         samples     bytes    blocks  highest force")?;
    for trace in &store.traces {
        let len = trace.bytes.len();
        let forces = samples(&store.stored[trace.bytes.clone()]);
        let highest = forces.iter().max().unwrap_or(&0);
        writeln!(out, "  {:<27}{:>10}{len:>10}{:>10}{highest:>13} N", trace.name, len / SAMPLE, len.div_ceil(b))?;
    }
    Ok(())
}

fn before(out: &mut dyn Write, store: &Store) -> Result<(), Failure> {
    let z = store.z;
    let sentence = format!(
        "A stripe is {} and {}, each on another node. Lost blocks are rebuilt from the others. The new {} empty.",
        count(z.k, "data block"),
        count(z.rows(), "parity block"),
        if z.s == 1 { "node is" } else { "nodes are" }
    );
    section(out, "2. The store before the growth", &sentence)?;
    table::print(out, z, &Layout::before(z), &store.cells)
}

fn growth(out: &mut dyn Write, terminal: bool, store: &mut Store, chance: &mut Chance) -> Result<Option<Repeat>, Failure> {
    let z = store.z;
    let sentence = format!(
        "The link loses one in {LOST} messages and receipts; of the rest it repeats one in {REPEATED} and brings one in {MISDIRECTED} to a \
         wrong node, in any order. Still every transfer must be accepted exactly once, and the traces must stay readable."
    );
    section(out, "3. The growth over a bad link", &sentence)?;
    say(
        out,
        &format!("{BY_CHANCE}: single calls in any order. {AGAIN}: what has no receipt is sent again. {DRIVE}: the library's own call."),
    )?;
    say(out, "astray: brought to a wrong node, which refused it. already: a repeat, which changed nothing.")?;
    writeln!(out)?;
    let mut progress = Progress::new(out, terminal, z.all_transfers(), z.kept());
    progress.head()?;
    let grown = grow(store, chance, progress)?;
    writeln!(out)?;
    ok(out, "every transfer accepted exactly once", &format!("{} transfers", z.all_transfers()))?;
    let Grown { by_calls, by_drive, .. } = grown;
    say(out, &format!("  {} stripes x {}: {by_calls} by single calls over the link, {by_drive} by drive", z.kept(), z.transfers()))?;
    ok(out, "every trace read when half was accepted", &format!("{} bytes compared", grown.compared))?;
    Ok(grown.repeat)
}

fn after(out: &mut dyn Write, store: &Store) -> Result<(), Failure> {
    let z = store.z;
    let layout = Layout::after(z);
    let sentence = "Every node, old or new, holds as many data blocks and as many parity blocks as the others: none is fuller.";
    section(out, "4. The store after the growth", sentence)?;
    table::print(out, z, &layout, &store.cells)?;
    writeln!(out)?;
    let (data, parity) = layout.ensure_even()?;
    ok(out, "every node has as many blocks as the others", &format!("{data} data, {parity} parity"))?;
    ok(out, "every old block is in a data cell of its own", &format!("{} blocks", layout.ensure_each_block_once(store)?))?;
    ok(out, "every empty cell is zero", &format!("{} cells", layout.ensure_empty_is_zero(&store.cells)?))?;
    ok(out, "every parity block is fresh encoding", &format!("{} blocks", store.compare_parity()?))
}

fn loss(out: &mut dyn Write, store: &mut Store, chance: &mut Chance) -> Result<(), Failure> {
    let sentence = format!(
        "With {}, up to {} may be lost if the remaining blocks determine the data; otherwise rebuild refuses. The cells of lost nodes \
         are overwritten with noise, and every stripe is rebuilt from the others.",
        count(store.z.rows(), "parity row"),
        count(store.z.rows(), "node")
    );
    section(out, "5. Nodes die", &sentence)?;
    let rebuilt = kill_and_rebuild(store, chance, out)?;
    let nodes = if rebuilt.dead.len() == 1 { "node" } else { "nodes" };
    let what = format!("{nodes} {} dead and rebuilt", list(&rebuilt.dead));
    ok(out, &what, &format!("{} blocks", rebuilt.blocks))?;
    ok(out, "every byte of every node as before", &format!("{} bytes compared", store.cells.len()))
}

fn comparison(out: &mut dyn Write, store: &Store) -> Result<(), Failure> {
    let sentence = "Every byte of every trace is read from the grown and rebuilt store and compared with what was stored first.";
    section(out, "6. The traces, compared", sentence)?;
    for trace in &store.traces {
        ok(out, trace.name, &format!("{} bytes compared", store.compare(trace)?))?;
    }
    ok(out, "data without a trace, still zero", &format!("{} bytes compared", store.compare_rest()?))?;
    ok(out, "every parity block is fresh encoding", &format!("{} blocks", store.compare_parity()?))
}

fn old_mistake(out: &mut dyn Write, store: &Store, repeat: Option<Repeat>) -> Result<(), Failure> {
    let sentence = "A change that is added twice cancels itself: the parity is wrong, and nobody notices until a node dies.";
    section(out, "7. What an old mistake would have done", sentence)?;
    match repeat {
        Some(repeat) => mistake::show(out, store, &repeat),
        None => say(out, nothing_to_show(store.z)),
    }
}

fn nothing_to_show(z: Shape) -> &'static str {
    if z.rows() == 1 {
        "This growth sends no change of a parity row: there is one parity row, and its own node changes it."
    } else {
        "In this run no change was sent whose effect shows in the samples of a pressed brake. Another seed may show one."
    }
}

/// `1 node`, `2 nodes`.
fn count(number: usize, what: &str) -> String {
    format!("{number} {what}{}", if number == 1 { "" } else { "s" })
}

#[cfg(test)]
mod tests {
    use super::*;
    use crate::testing::grown;

    fn told_without_a_repeat(n: usize, k: usize, s: usize) -> String {
        let mut out = Vec::new();
        old_mistake(&mut out, &grown(n, k, s), None).unwrap();
        String::from_utf8(out).unwrap()
    }

    #[test]
    fn why_there_is_nothing_to_repeat_is_told_as_it_is() {
        assert!(told_without_a_repeat(3, 2, 1).contains("there is one parity row"));
        let two_rows = told_without_a_repeat(4, 2, 1);
        assert!(two_rows.contains("In this run no change was sent whose effect") && !two_rows.contains("one parity row"));
    }
}
