//! A small store under way, and calls on it that nothing is wrong with.

use crate::cause::Cause;
use crate::common::calls::{library, Call, Lent};
use crate::common::messages::{receiver, sender};
use taldrimsu::Shape;

/// 48 kept stripes, straight below 16 and swapped from there on; three transfers each: the change of row 1 to the stripe's next node, and
/// a block each to the new nodes 4 and 5.
pub const Z: Shape = Shape { n: 4, k: 2, s: 2, b: 2 };
pub const KEPT: usize = 48;
pub const TRANSFERS: u32 = 3;
pub const TOTAL: u32 = 144;
pub const NODES: usize = 6;

/// Stripes of the store under way, one at each stage.
pub const FRESH: usize = 5;
pub const COMPUTED: usize = 6;
/// Transfer 0 is accepted and not receipted.
pub const ACCEPTED: usize = 7;
/// All transfers are receipted.
pub const RECEIPTED: usize = 9;
pub const RELEASED: usize = 10;
/// Swapped and computed; the parity row goes to node 4, and to node 5.
pub const SWAPPED: [usize; 2] = [20, 21];

/// The journal's place of the pair of a stripe: the word of kind 10, then that of kind 11.
pub fn pair(w: usize) -> usize {
    4 + 2 * w
}

/// A call, what it is lent, and the code that it answers.
pub struct Sound {
    pub call: Call,
    pub lent: Lent,
    pub code: u64,
}

impl Sound {
    fn new(call: Call, lent: &Lent, code: u64) -> Sound {
        Sound { call, lent: lent.clone(), code }
    }

    /// With something spoilt the call answers this code, and writes nothing if that is a refusal. Tells what it left.
    pub fn answers(&self, code: u64, name: &str, spoil: impl Fn(&mut Lent)) -> Lent {
        let mut lent = self.lent.clone();
        spoil(&mut lent);
        let before = lent.clone();
        let answer = library(Z, self.call, &mut lent) % 256;
        assert_eq!(answer, code, "{:?} with {name} (left: the library's answer)", self.call);
        assert!(code == 0 || code > 13 || lent == before, "{:?} with {name} is refused and wrote", self.call);
        lent
    }

    /// With its journal spoilt by the cause alone the call is refused with 4.
    pub fn refuses_journal(&self, cause: &Cause) {
        self.answers(self.code, "nothing wrong", |_| ());
        self.answers(4, &cause.name, |lent| cause.in_words(&mut lent.book));
    }
}

/// The store under way, with its messages and receipts full of a pattern that a call would write over.
pub fn under_way() -> Lent {
    let mut lent = begun();
    for w in [COMPUTED, SWAPPED[0], SWAPPED[1]] {
        assert_eq!(library(Z, Call::Compute { w }, &mut lent), 0);
    }
    accept(&mut lent, ACCEPTED, 0);
    for w in [RECEIPTED, RELEASED] {
        for e in 0..TRANSFERS as usize {
            let node = accept(&mut lent, w, e);
            assert_eq!(library(Z, Call::Receipt { node }, &mut lent), 0);
        }
    }
    assert_eq!(library(Z, Call::Release { w: RELEASED }, &mut lent), 0);
    lent.message.fill(0xEE);
    lent.receipt.fill(0xEE);
    lent
}

fn begun() -> Lent {
    let cells = (0..Z.cells_len()).map(|i| (i % 251) as u8).collect();
    let (message, receipt) = (vec![0xEE; Z.message_len()], vec![0xEE; Shape::RECEIPT_LEN]);
    let mut lent = Lent { cells, book: vec![0; Z.book_len()], message, receipt };
    assert_eq!(library(Z, Call::Encode, &mut lent), 0);
    assert_eq!(library(Z, Call::Begin { number: 7 }, &mut lent), 0);
    lent
}

/// Carries a transfer as far as its receipt, which is left in what is lent; tells the sender.
fn accept(lent: &mut Lent, w: usize, e: usize) -> usize {
    assert!([0, 32].contains(&library(Z, Call::Compute { w }, lent)));
    assert_eq!(library(Z, Call::Send { w, e }, lent), 0);
    let node = receiver(&lent.message);
    assert_eq!(library(Z, Call::Deliver { node }, lent), 0);
    sender(&lent.receipt)
}

/// A message on its way to its receiver.
pub fn arriving(w: usize, e: usize, code: u64) -> Sound {
    let mut lent = under_way();
    assert_eq!(library(Z, Call::Send { w, e }, &mut lent), 0);
    Sound::new(Call::Deliver { node: receiver(&lent.message) }, &lent, code)
}

/// A receipt on its way to the sender of its message: of transfer 0, which is accepted and not receipted.
pub fn returning() -> Sound {
    let mut lent = under_way();
    assert_eq!(library(Z, Call::Send { w: ACCEPTED, e: 0 }, &mut lent), 0);
    assert_eq!(library(Z, Call::Deliver { node: receiver(&lent.message) }, &mut lent), 32);
    Sound::new(Call::Receipt { node: sender(&lent.receipt) }, &lent, 0)
}

/// The calls that look at the header and one word, done each, and the place of that word.
pub fn touching() -> Vec<(Sound, usize)> {
    let lent = under_way();
    let (g, d) = dissolved_block();
    let calls =
        [(Call::Compute { w: FRESH }, FRESH), (Call::Send { w: COMPUTED, e: 0 }, COMPUTED), (Call::Release { w: RECEIPTED }, RECEIPTED)];
    let mut all: Vec<(Sound, usize)> = calls.map(|(call, w)| (Sound::new(call, &lent, 0), pair(w) + 1)).into();
    all.push((returning(), pair(ACCEPTED) + 1));
    all.push((Sound::new(Call::Read { g, d }, &lent, 0), pair(COMPUTED) + 1));
    all.push((arriving(COMPUTED, 0, 0), pair(COMPUTED)));
    all
}

/// New block 0 of stripe COMPUTED. Node 2 has data blocks in the dissolved stripes whose number mod 4 is 0 or 1; by rising slot these are
/// 48, 49, 52, 53 and so on, and the block is number 6 div 4 × 2 of them. Node (52+2+0) mod 4 is node 2, so it is column 0 of stripe 52.
fn dissolved_block() -> (usize, usize) {
    (52, 0)
}

/// The read of a kept block, which looks at the header alone.
pub fn kept_read() -> Sound {
    Sound::new(Call::Read { g: FRESH, d: 1 }, &under_way(), 0)
}

/// The calls that test the whole journal, on what they are lent, with their codes.
pub fn testing(lent: &Lent, drive: u64, close: u64, status: u64) -> Vec<Sound> {
    let mut driven = lent.clone();
    driven.message = vec![0xEE; Z.drive_space_len()];
    let limit = Call::Drive { limit: 1 };
    vec![Sound::new(limit, &driven, drive), Sound::new(Call::Close, lent, close), Sound::new(Call::Status, lent, status)]
}

/// The store with every stripe released, still open.
pub fn finished() -> Lent {
    let mut lent = under_way();
    lent.message = vec![0xEE; Z.drive_space_len()];
    assert_eq!(library(Z, Call::Drive { limit: TOTAL as usize }, &mut lent) % 256, 34);
    lent
}

pub fn closed() -> Lent {
    let mut lent = finished();
    assert_eq!(library(Z, Call::Close, &mut lent), 0);
    lent
}
