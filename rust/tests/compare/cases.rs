//! Many cases of one call: a random store under way, arguments that mostly fit, and now and then something spoilt.

use crate::common::calls::{Call, Lent};
use crate::common::messages::{receiver, sender};
use crate::common::random::Random;
use crate::runs::{compare, Case, Seen};
use crate::shapes::Sizes;
use crate::stores::{receipt_of, Store};
use crate::{damage, model, shapes};
use taldrimsu::{encode, Shape};

/// How many cases share a store before another one is made.
const CASES_OF_A_STORE: usize = 10;

/// What a call is given, and the stripe whose words it looks at.
pub struct Given {
    pub call: Call,
    pub lent: Lent,
    pub touched: usize,
}

/// Compares many cases of one call on stores of these sizes; tells the answer codes that were seen.
pub fn run(seed: u64, cases: usize, sizes: &Sizes, make: fn(&mut Random, &Store) -> Given) -> Seen {
    let mut random = Random::new(seed);
    let mut seen = Seen::new();
    for _ in 0..cases / CASES_OF_A_STORE {
        let z = shapes::any(&mut random, sizes);
        let store = Store::any(&mut random, z);
        for _ in 0..CASES_OF_A_STORE {
            let given = make(&mut random, &store);
            let case = spoil(&mut random, store.z, given);
            seen.insert(compare(&case));
        }
    }
    seen
}

/// Each thing is spoilt now and then, so that two out of five cases have nothing wrong with them and some have several things.
fn spoil(random: &mut Random, z: Shape, given: Given) -> Case {
    let Given { call, mut lent, touched } = given;
    if random.one_in(3) {
        damage::journal(random, z, &mut lent.book, touched);
    }
    if random.one_in(4) {
        damage::message(random, z, &mut lent.message);
        damage::message(random, z, &mut lent.receipt);
    }
    if random.one_in(10) {
        match random.below(4) {
            0 => damage::length(random, &mut lent.cells),
            1 => damage::length(random, &mut lent.book),
            2 => damage::length(random, &mut lent.message),
            _ => damage::length(random, &mut lent.receipt),
        }
    }
    let z = if random.one_in(10) { shapes::spoilt(random, z) } else { z };
    Case { z, call, lent }
}

fn lent(random: &mut Random, store: &Store, message_len: usize) -> Lent {
    Lent {
        cells: store.cells.clone(),
        book: store.book.clone(),
        message: random.bytes(message_len),
        receipt: random.bytes(Shape::RECEIPT_LEN),
    }
}

fn given(random: &mut Random, store: &Store, call: Call, touched: usize) -> Given {
    let lent = lent(random, store, store.z.message_len());
    Given { call, lent, touched: touched.min(store.z.kept() - 1) }
}

pub fn encodes(random: &mut Random, store: &Store) -> Given {
    given(random, store, Call::Encode, 0)
}

/// Mostly an old store with true parity, at times with one byte wrong there or on a new node, at times a store under way.
pub fn begins(random: &mut Random, store: &Store) -> Given {
    let number = random.near(1 << 28);
    let mut given = given(random, store, Call::Begin { number }, 0);
    if !random.one_in(4) {
        encode(store.z, &mut given.lent.cells).unwrap();
    }
    if random.one_in(4) {
        let place = random.below(given.lent.cells.len());
        given.lent.cells[place] ^= 1 << random.below(8);
    }
    given
}

pub fn computes(random: &mut Random, store: &Store) -> Given {
    let w = random.near(store.z.kept());
    given(random, store, Call::Compute { w }, w)
}

pub fn sends(random: &mut Random, store: &Store) -> Given {
    let (w, e) = (random.near(store.z.kept()), random.near(store.z.transfers()));
    given(random, store, Call::Send { w, e }, w)
}

/// A message of any transfer, at its receiver or at some other node.
pub fn delivers(random: &mut Random, store: &Store) -> Given {
    let (w, e) = (random.below(store.z.kept()), random.below(store.z.transfers()));
    let message = store.message(w, e);
    let node = if random.one_in(8) { random.near(store.z.nodes()) } else { receiver(&message) };
    let mut given = given(random, store, Call::Deliver { node }, w);
    given.lent.message = message;
    given
}

/// A receipt of any transfer, at its sender or at some other node.
pub fn receipts(random: &mut Random, store: &Store) -> Given {
    let (w, e) = (random.below(store.z.kept()), random.below(store.z.transfers()));
    let receipt = receipt_of(&store.message(w, e));
    let node = if random.one_in(8) { random.near(store.z.nodes()) } else { sender(&receipt) };
    let mut given = given(random, store, Call::Receipt { node }, w);
    given.lent.receipt = receipt;
    given
}

pub fn releases(random: &mut Random, store: &Store) -> Given {
    let w = random.near(store.z.kept());
    given(random, store, Call::Release { w }, w)
}

pub fn closes(random: &mut Random, store: &Store) -> Given {
    let w = random.below(store.z.kept());
    given(random, store, Call::Close, w)
}

pub fn statuses(random: &mut Random, store: &Store) -> Given {
    let w = random.below(store.z.kept());
    given(random, store, Call::Status, w)
}

/// Half of the blocks are a new block of some stripe w, so that the damage strikes the word that tells where the block is.
pub fn reads(random: &mut Random, store: &Store) -> Given {
    let z = store.z;
    let w = random.below(z.kept());
    let (mut g, mut d) = (random.near(z.stripes()), random.near(z.k));
    if random.one_in(2) {
        let model = model::Shape { n: z.n, k: z.k, s: z.s, b: z.b };
        g = random.pick(&model.new_block_slots(w));
        d = (0..z.k).find(|&d| z.data_place(g, d).0 == model.sender(w)).unwrap();
    }
    given(random, store, Call::Read { g, d }, w)
}

pub fn drives(random: &mut Random, store: &Store) -> Given {
    let few = random.below(4);
    let some = random.below(store.z.all_transfers());
    let limit = random.pick(&[few, few, some, usize::MAX]);
    let w = random.below(store.z.kept());
    let mut given = given(random, store, Call::Drive { limit }, w);
    given.lent.message = random.bytes(store.z.drive_space_len());
    given
}
