//! Refusal 4 for the header, the first four words of the journal, which every call but encode, begin and rebuild looks at.

use crate::cause::{fields, wrong_kinds, Cause};
use crate::common::calls::{Call, Lent};
use crate::sound::{arriving, kept_read, testing, touching, under_way, Sound, ACCEPTED, COMPUTED, TOTAL};
use std::ops::Range;

const STATE: Range<u32> = 24..28;

/// Every call that looks at the journal.
fn all() -> Vec<Sound> {
    let mut all: Vec<Sound> = touching().into_iter().map(|(sound, _)| sound).collect();
    all.push(kept_read());
    all.extend(testing(&under_way(), 33, 8, 41));
    all
}

/// A wrong kind, an unlisted state, other shape or B.
fn causes() -> Vec<Cause> {
    let book = under_way().book;
    let mut causes: Vec<Cause> = (0..4).flat_map(|place| wrong_kinds(place, book[place])).collect();
    causes.extend(fields("state", 0, book[0], STATE, (0..16).filter(|state| ![1, 2].contains(state))));
    causes.extend(fields("n", 0, book[0], 16..24, [0, 2, 3, 5, 132, 255]));
    causes.extend(fields("k", 0, book[0], 8..16, [0, 1, 3, 130, 255]));
    causes.extend(fields("s", 0, book[0], 0..8, [0, 1, 3, 130, 255]));
    causes.extend(fields("B", 1, book[1], 0..28, [0, 1, 3, 4096, 2 + (1 << 27)]));
    causes
}

#[test]
fn the_header_is_of_this_growth() {
    assert_eq!(under_way().book[..4], [0x7104_0202, 0x8000_0002, 0x9000_0007, 0xC000_0007]);
    for sound in all() {
        causes().iter().for_each(|cause| sound.refuses_journal(cause));
    }
}

/// The state closed is listed: it is a cause of 13, but for read; and of 4 where the whole journal is tested, as stripes are unreleased.
#[test]
fn the_state_closed_is_listed() {
    let word = under_way().book[0];
    for sound in all() {
        let code = match sound.call {
            Call::Read { .. } => 0,
            Call::Drive { .. } | Call::Close | Call::Status => 4,
            _ => 13,
        };
        let closed = &fields("state", 0, word, STATE, [2])[0];
        sound.answers(code, &closed.name, |lent| closed.in_words(&mut lent.book));
    }
}

/// Any growth number is one: messages and receipts of another are refused with 10, and no other call minds.
#[test]
fn the_growth_number_is_no_cause() {
    for sound in all() {
        let code = if matches!(sound.call, Call::Deliver { .. } | Call::Receipt { .. }) { 10 } else { sound.code };
        for number in [0, 6, 8, (1 << 28) - 1] {
            sound.answers(code, "another growth number", |lent| lent.book[2] = 9 << 28 | number);
        }
    }
}

/// Of the calls that do not test the whole journal only deliver looks at the count, and only if its mark is missing.
#[test]
fn the_count_is_a_cause_for_deliver_alone() {
    for count in [TOTAL, TOTAL + 1, (1 << 28) - 1] {
        let full = |lent: &mut Lent| lent.book[3] = 12 << 28 | count;
        for (sound, _) in touching() {
            let code = if matches!(sound.call, Call::Deliver { .. }) { 4 } else { 0 };
            sound.answers(code, &format!("count {count}"), full);
        }
        kept_read().answers(0, &format!("count {count}"), full);
        let left = arriving(ACCEPTED, 0, 32).answers(32, &format!("count {count} and the mark set"), full);
        assert_eq!((left.book[3], left.receipt[3]), (12 << 28 | count, 0x40), "a repeat writes the receipt alone");
    }
    let left = arriving(COMPUTED, 0, 0).answers(0, "one transfer left", |lent| lent.book[3] = 12 << 28 | (TOTAL - 1));
    assert_eq!(left.book[3], 12 << 28 | TOTAL);
}
