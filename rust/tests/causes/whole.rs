//! Refusal 4 in drive, close and status, which test the whole journal.

use crate::cause::{set_bits, with_field, wrong_kinds, Cause};
use crate::sound::{closed, finished, pair, testing, under_way, ACCEPTED, COMPUTED, FRESH, KEPT, RECEIPTED, RELEASED, TOTAL, TRANSFERS};

const BIT_COMPUTED: u32 = 1 << 26;
const BIT_RELEASED: u32 = 1 << 27;
const LAST: usize = KEPT - 1;

/// The words of every pair: a wrong kind, an unnamed bit.
fn words(book: &[u32]) -> Vec<Cause> {
    let mut causes = Vec::new();
    for w in [0, FRESH, COMPUTED, RELEASED, LAST] {
        let (accepted, sent) = (pair(w), pair(w) + 1);
        causes.extend(wrong_kinds(accepted, book[accepted]));
        causes.extend(set_bits(accepted, book[accepted], TRANSFERS..28));
        causes.extend(wrong_kinds(sent, book[sent]));
        causes.extend(set_bits(sent, book[sent], TRANSFERS..26));
    }
    causes
}

/// The count is not the number of marks.
fn counts(book: &[u32]) -> Vec<Cause> {
    let right = book[3] & 0x0FFF_FFFF;
    let others = [0, right - 1, right + 1, TOTAL + 1, (1 << 28) - 1].into_iter();
    others.map(|count| Cause::new(&format!("count {count}"), &[(3, 12 << 28 | count)])).collect()
}

/// The rules between the marks of a stripe, broken one at a time on the store under way.
fn marks(book: &[u32]) -> Vec<Cause> {
    let accepted = |w: usize, bits: u32| (pair(w), book[pair(w)] ^ bits);
    let sent = |w: usize, bits: u32| (pair(w) + 1, book[pair(w) + 1] ^ bits);
    let (one_more, one_less) = ((3, book[3] + 1), (3, book[3] - 1));
    vec![
        Cause::new("receipted without accepted", &[sent(COMPUTED, 1)]),
        Cause::new("another one receipted without accepted", &[sent(ACCEPTED, 2)]),
        Cause::new("receipted, and accepted no more", &[accepted(RECEIPTED, 4), one_less]),
        Cause::new("accepted without computed", &[accepted(FRESH, 1), one_more]),
        Cause::new("accepted, and computed no more", &[sent(ACCEPTED, BIT_COMPUTED)]),
        Cause::new("released, and computed no more", &[sent(RELEASED, BIT_COMPUTED)]),
        Cause::new("released with nothing accepted", &[sent(COMPUTED, BIT_RELEASED)]),
        Cause::new("released with nothing receipted", &[sent(ACCEPTED, BIT_RELEASED)]),
        Cause::new("released with the last one unreceipted", &[sent(RELEASED, 4)]),
        Cause::new("released from fresh", &[sent(FRESH, BIT_RELEASED)]),
        Cause::new("closed with stripes unreleased", &[(0, with_field(book[0], 24..28, 2))]),
    ]
}

/// The same where every stripe is released, so that nothing else is left to do.
fn last_stripe(book: &[u32]) -> Vec<Cause> {
    let (accepted, sent) = (pair(LAST), pair(LAST) + 1);
    let closed = (0, with_field(book[0], 24..28, 2));
    vec![
        Cause::new("closed with the last stripe unreleased", &[closed, (sent, book[sent] ^ BIT_RELEASED)]),
        Cause::new("closed with the last stripe fresh", &[closed, (accepted, 10 << 28), (sent, 11 << 28), (3, book[3] - TRANSFERS)]),
        Cause::new("the last stripe's last transfer unreceipted", &[(sent, book[sent] ^ 4)]),
        Cause::new("the last stripe's last transfer not accepted", &[(accepted, book[accepted] ^ 4), (3, book[3] - 1)]),
        Cause::new("the last stripe not computed", &[(sent, book[sent] ^ BIT_COMPUTED)]),
    ]
}

#[test]
fn of_a_store_under_way() {
    let lent = under_way();
    for sound in testing(&lent, 33, 8, 41) {
        let causes = [words(&lent.book), counts(&lent.book), marks(&lent.book)].concat();
        causes.iter().for_each(|cause| sound.refuses_journal(cause));
    }
}

#[test]
fn of_a_finished_store() {
    let lent = finished();
    for sound in testing(&lent, 34, 0, 41) {
        let causes = [words(&lent.book), counts(&lent.book), last_stripe(&lent.book)].concat();
        causes.iter().for_each(|cause| sound.refuses_journal(cause));
    }
}

/// 4 comes before 13.
#[test]
fn of_a_closed_store() {
    let lent = closed();
    for sound in testing(&lent, 13, 13, 42) {
        let causes = [words(&lent.book), counts(&lent.book), last_stripe(&lent.book)].concat();
        causes.iter().for_each(|cause| sound.refuses_journal(cause));
    }
}
