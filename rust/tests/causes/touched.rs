//! Refusal 4 for the one word of the journal beyond the header that a call touches: kind 10 in deliver, kind 11 in the others.

use crate::cause::{set_bits, wrong_kinds, Cause};
use crate::common::calls::{Call, Lent};
use crate::sound::{arriving, kept_read, touching, COMPUTED, FRESH, KEPT, NODES, TRANSFERS};

/// A wrong kind, and the bits that the table does not name: kind 10 has a bit for each transfer, kind 11 also bits 26 and 27.
fn causes(place: usize, word: u32) -> Vec<Cause> {
    let named_from = if word >> 28 == 10 { 28 } else { 26 };
    let mut causes = wrong_kinds(place, word);
    causes.extend(set_bits(place, word, TRANSFERS..named_from));
    causes
}

/// The other word of the same stripe's pair: the pairs begin at place 4.
fn other_of_pair(place: usize) -> usize {
    place ^ 1
}

#[test]
fn the_touched_word_is_a_cause() {
    for (sound, place) in touching() {
        for cause in causes(place, sound.lent.book[place]) {
            sound.refuses_journal(&cause);
        }
    }
}

/// The call answers as it does with nothing wrong, and leaves all but that word as it does then.
#[test]
fn the_other_word_of_the_pair_is_none() {
    for (sound, place) in touching() {
        let other = other_of_pair(place);
        let right = sound.lent.book[other];
        let expected = sound.answers(sound.code, "nothing wrong", |_| ());
        for cause in causes(other, right).into_iter().chain([Cause::new("zero", &[(other, 0)]), Cause::new("ones", &[(other, u32::MAX)])]) {
            let mut left = sound.answers(sound.code, &cause.name, |lent| cause.in_words(&mut lent.book));
            assert_eq!(left.book[other], cause.words[0].1);
            left.book[other] = right;
            assert!(left == expected, "{:?} minds {}", sound.call, cause.name);
        }
    }
}

#[test]
fn the_words_of_other_stripes_are_none() {
    for (sound, place) in touching() {
        let own = [place, other_of_pair(place)];
        sound.answers(sound.code, "every other stripe's words zero", |lent| {
            (4..lent.book.len()).filter(|at| !own.contains(at)).for_each(|at| lent.book[at] = 0);
        });
    }
    kept_read().answers(0, "every stripe's words zero", |lent| lent.book[4..].fill(0));
}

fn all_words_spoilt(lent: &mut Lent) {
    lent.book[4..].fill(0);
}

/// A stripe, block or transfer out of range has no word, and a malformed message has none: 5 and 9 are given though every word is spoilt.
#[test]
fn what_is_out_of_range_touches_no_word() {
    let calls = [
        Call::Compute { w: KEPT },
        Call::Send { w: KEPT, e: 0 },
        Call::Release { w: KEPT },
        Call::Read { g: 96, d: 0 },
        Call::Read { g: 52, d: 2 },
    ];
    for call in calls {
        let mut sound = arriving(COMPUTED, 0, 0);
        sound.call = call;
        sound.answers(5, "every stripe's words zero", all_words_spoilt);
    }
    arriving(COMPUTED, 0, 0).answers(9, "a malformed message", |lent| {
        all_words_spoilt(lent);
        lent.message[4] |= 1;
    });
}

/// A transfer out of range still has a stripe, and a well-formed message for another node or of another growth has one: 4 comes first.
#[test]
fn what_names_a_stripe_touches_its_word() {
    let mut sound = arriving(COMPUTED, 0, 0);
    sound.answers(4, "another growth number", |lent| {
        all_words_spoilt(lent);
        lent.message[8] ^= 1;
    });
    let Call::Deliver { node } = sound.call else { unreachable!("a message arrives by deliver") };
    sound.call = Call::Deliver { node: (node + 1) % NODES };
    sound.answers(4, "another node", all_words_spoilt);
    sound.call = Call::Send { w: FRESH, e: TRANSFERS as usize };
    sound.answers(4, "a transfer out of range", all_words_spoilt);
}
