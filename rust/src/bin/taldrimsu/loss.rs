//! Nodes die: their cells are overwritten with noise, and every stripe is rebuilt from what is left.

use crate::chance::Chance;
use crate::failure::{refused, Failure};
use crate::layout::{cells_of, Layout};
use crate::store::Store;
use crate::stripe::{lift, places, put_back};
use crate::text::say;
use std::io::Write;
use taldrimsu::{rebuild, Refusal};

/// The nodes that died and the number of blocks that were rebuilt.
pub struct Rebuilt {
    pub dead: Vec<usize>,
    pub blocks: usize,
}

/// Kills as many nodes as there are parity rows and rebuilds what they held. Some shapes have sets of nodes that cannot be
/// repaired: rebuild refuses those, the store is left as it was, and other nodes are chosen.
pub fn kill_and_rebuild(store: &mut Store, chance: &mut Chance, out: &mut dyn Write) -> Result<Rebuilt, Failure> {
    let rows = store.z.rows();
    let mut sets = sets_of(store.z.nodes(), rows);
    chance.shuffle(&mut sets);
    for dead in sets {
        let mut cells = store.cells.clone();
        kill(store, &mut cells, &dead, chance);
        match rebuild_all(store, &mut cells, &dead) {
            Ok(blocks) => return compare(store, cells, Rebuilt { dead, blocks }),
            Err((w, Refusal::Ambiguous)) => say(out, &cannot_die_together(&dead, w))?,
            Err((w, refusal)) => return Err(refused(&format!("rebuild of stripe {w}"))(refusal)),
        }
    }
    Err(Failure::failed(format!("no {rows} nodes can be rebuilt together")))
}

fn cannot_die_together(dead: &[usize], w: usize) -> String {
    let why = Refusal::Ambiguous;
    format!("Nodes {} cannot die together: rebuild refuses stripe {w} (11), {why}. The demonstration takes other nodes.", list(dead))
}

fn kill(store: &Store, cells: &mut [u8], dead: &[usize], chance: &mut Chance) {
    for node in dead {
        let own = cells_of(store.z, *node);
        chance.fill(&mut cells[own.start * store.z.b..own.end * store.z.b]);
    }
}

/// Rebuilds every stripe, and zeroes what the new layout leaves empty, as a fresh node's cells are. Tells how many blocks were rebuilt, or
/// the stripe that was refused.
fn rebuild_all(store: &Store, cells: &mut [u8], dead: &[usize]) -> Result<usize, (usize, Refusal)> {
    let z = store.z;
    let mut blocks = 0;
    for w in 0..z.kept() {
        let losses: Vec<u8> = places(z, w).iter().map(|(node, _)| u8::from(dead.contains(node))).collect();
        let mut stripe = lift(z, cells, w);
        blocks += rebuild(z.nodes(), z.k + z.s, z.b, &mut stripe, &losses).map_err(|refusal| (w, refusal))?;
        put_back(z, cells, w, &stripe);
    }
    for number in Layout::after(z).empty() {
        cells[number * z.b..(number + 1) * z.b].fill(0);
    }
    Ok(blocks)
}

/// Takes the rebuilt cells if they are, byte for byte, those from before the loss.
fn compare(store: &mut Store, cells: Vec<u8>, rebuilt: Rebuilt) -> Result<Rebuilt, Failure> {
    match (0..cells.len()).find(|at| cells[*at] != store.cells[*at]) {
        Some(at) => Err(Failure::failed(format!("byte {at} of the area is not rebuilt as it was"))),
        None => {
            store.cells = cells;
            Ok(rebuilt)
        }
    }
}

/// All sets of so many of the nodes.
fn sets_of(nodes: usize, size: usize) -> Vec<Vec<usize>> {
    let members = |set: u32| (0..nodes).filter(|node| set >> node & 1 == 1).collect();
    (0..1u32 << nodes).filter(|set| set.count_ones() as usize == size).map(members).collect()
}

/// Numbers as words: `1`, `1 and 2`, `1, 2 and 3`.
pub fn list(numbers: &[usize]) -> String {
    let words: Vec<String> = numbers.iter().map(usize::to_string).collect();
    match words.split_last() {
        Some((last, rest)) if !rest.is_empty() => format!("{} and {last}", rest.join(", ")),
        _ => words.concat(),
    }
}

#[cfg(test)]
mod tests {
    use super::*;
    use crate::testing::grown;

    #[test]
    fn a_byte_that_is_not_rebuilt_is_found() {
        let mut store = grown(4, 2, 1);
        let mut cells = store.cells.clone();
        cells[5000] ^= 1;
        let failure = compare(&mut store, cells, Rebuilt { dead: vec![0], blocks: 0 }).err().unwrap();
        assert_eq!(failure.line, "byte 5000 of the area is not rebuilt as it was");
    }

    #[test]
    fn a_killed_node_holds_nothing_of_its_own() {
        let store = grown(4, 2, 1);
        let mut cells = store.cells.clone();
        kill(&store, &mut cells, &[3], &mut Chance::new(5));
        let own = cells_of(store.z, 3);
        for number in own.clone() {
            assert_ne!(cells[number * 64..][..64], store.cells[number * 64..][..64]);
        }
        assert_eq!(cells[..own.start * 64], store.cells[..own.start * 64]);
        assert_eq!(cells[own.end * 64..], store.cells[own.end * 64..]);
    }

    #[test]
    fn damage_on_a_node_that_lives_is_refused() {
        let store = grown(4, 2, 1);
        let mut cells = store.cells.clone();
        cells[cells_of(store.z, 0).start * 64] ^= 1;
        assert_eq!(rebuild_all(&store, &mut cells, &[1]), Err((0, Refusal::Inconsistent)));
    }

    #[test]
    fn sets_and_lists() {
        assert_eq!(sets_of(3, 2), [[0, 1], [0, 2], [1, 2]]);
        assert_eq!(sets_of(20, 4).len(), 4845);
        assert_eq!([list(&[1]), list(&[1, 2]), list(&[1, 2, 3])], ["1", "1 and 2", "1, 2 and 3"]);
    }
}
