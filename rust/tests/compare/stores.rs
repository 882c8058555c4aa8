//! Random stores under way. Their cells are random too: only begin asks what stands in them.

use crate::common::messages::{receiver, sender};
use crate::common::random::Random;
use taldrimsu::{begin, close, compute, deliver, drive, encode, receipt, release, send, Shape};

#[derive(Clone)]
pub struct Store {
    pub z: Shape,
    pub cells: Vec<u8>,
    pub book: Vec<u32>,
}

pub const COMPUTED: u32 = 1 << 26;
pub const RELEASED: u32 = 1 << 27;

impl Store {
    /// A store at any stage of its growth.
    pub fn any(random: &mut Random, z: Shape) -> Store {
        let mut store = Store::begun(random, z);
        match random.below(6) {
            0 => {}
            1 => store.finish(),
            2 => {
                store.finish();
                close(z, &mut store.cells, &mut store.book).unwrap();
            }
            3 => store.book = consistent_book(random, z, store.book[2]),
            _ => store.go_on(random),
        }
        store
    }

    /// An encoded store whose growth has just begun.
    pub fn begun(random: &mut Random, z: Shape) -> Store {
        let mut store = Store { z, cells: random.bytes(z.cells_len()), book: random.words(z.book_len()) };
        let number = random.pick(&[0, 1, 7, (1 << 28) - 1]);
        encode(z, &mut store.cells).unwrap();
        begin(z, &mut store.cells, &mut store.book, number).unwrap();
        store
    }

    fn finish(&mut self) {
        let mut space = vec![0; self.z.drive_space_len()];
        drive(self.z, &mut self.cells, &mut self.book, usize::MAX, &mut space).unwrap();
    }

    /// A drive and then some real calls of random stripes, so that stripes of every stage stand side by side.
    fn go_on(&mut self, random: &mut Random) {
        let mut space = vec![0; self.z.drive_space_len()];
        let limit = random.below(self.z.all_transfers());
        drive(self.z, &mut self.cells, &mut self.book, limit, &mut space).unwrap();
        for _ in 0..random.below(4 * self.z.kept()) {
            let (w, e) = (random.below(self.z.kept()), random.below(self.z.transfers()));
            self.some_calls(random, w, e);
        }
    }

    /// The calls of one transfer up to some point; a call that is refused because an earlier one is missing changes nothing.
    fn some_calls(&mut self, random: &mut Random, w: usize, e: usize) {
        let Store { z, cells, book } = self;
        let (mut message, mut signed) = (vec![0; z.message_len()], [0; Shape::RECEIPT_LEN]);
        let steps = random.below(5);
        let _ = compute(*z, cells, book, w);
        if steps >= 1 && send(*z, cells, book, w, e, &mut message).is_ok() {
            deliver(*z, cells, book, receiver(&message), &message, &mut signed).unwrap();
            if steps >= 2 {
                receipt(*z, book, sender(&message), &signed).unwrap();
            }
        }
        if steps >= 3 {
            let _ = release(*z, cells, book, w);
        }
    }

    /// The message of a transfer as this store would send it if the stripe were computed and unreleased, so that any transfer has one.
    pub fn message(&self, w: usize, e: usize) -> Vec<u8> {
        let mut message = vec![0; self.z.message_len()];
        let mut book = self.book.clone();
        book[0] = 0x7100_0000 | (self.book[0] & 0x00FF_FFFF);
        book[5 + 2 * w] = (11 << 28) | COMPUTED;
        send(self.z, &self.cells, &book, w, e, &mut message).unwrap();
        message
    }
}

/// A journal that the test of the whole journal lets pass, with stripes of every stage in any order; it need not be one that calls lead to.
fn consistent_book(random: &mut Random, z: Shape, growth: u32) -> Vec<u32> {
    let all = (1u32 << z.transfers()) - 1;
    let shape = ((z.n << 16) | (z.k << 8) | z.s) as u32;
    let mut book = vec![0x7100_0000 | shape, (8 << 28) | z.b as u32, growth, 12 << 28];
    for _ in 0..z.kept() {
        let (accepted, sent) = match random.below(4) {
            0 => (0, 0),
            1 => (all, COMPUTED | all),
            2 => (all, RELEASED | COMPUTED | all),
            _ => {
                let accepted = random.next() as u32 & all;
                (accepted, COMPUTED | (accepted & random.next() as u32))
            }
        };
        book.extend([(10 << 28) | accepted, (11 << 28) | sent]);
        book[3] += accepted.count_ones();
    }
    book
}

/// The receipt of a message: kind 4 in place of the message's own.
pub fn receipt_of(message: &[u8]) -> Vec<u8> {
    let mut receipt = message[..Shape::RECEIPT_LEN].to_vec();
    receipt[3] = 0x40 | (receipt[3] & 0x0F);
    receipt
}
