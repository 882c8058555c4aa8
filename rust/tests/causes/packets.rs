//! Refusal 9: messages and receipts with one thing that table and layout do not give, and good ones at another node.

use crate::cause::{fields, set_bits, with_field, wrong_kinds, Cause};
use crate::common::calls::Call;
use crate::common::messages::{receiver, sender};
use crate::sound::{arriving, returning, Sound, ACCEPTED, COMPUTED, KEPT, NODES, SWAPPED, TRANSFERS, Z};
use std::ops::Range;

const SENDER: Range<u32> = 20..28;
const RECEIVER: Range<u32> = 12..20;
const ITEM: Range<u32> = 4..12;

fn word(bytes: &[u8], place: usize) -> u32 {
    u32::from_le_bytes(bytes[4 * place..4 * place + 4].try_into().unwrap())
}

/// A message for each way that a transfer goes, with its kind: a change; a block of a straight stripe to each new node; of swapped stripes
/// the parity row to one new node and the block to the other. Sound's code is 0: each of them is accepted if nothing is wrong.
fn messages() -> Vec<(Sound, u32)> {
    let [to_4, to_5] = SWAPPED;
    let transfers =
        [(COMPUTED, 0, 1), (COMPUTED, 1, 2), (COMPUTED, 2, 2), (to_4, 0, 1), (to_4, 1, 3), (to_4, 2, 2), (to_5, 1, 2), (to_5, 2, 3)];
    transfers.map(|(w, e, kind)| (arriving(w, e, 0), kind)).into()
}

/// What can be wrong with the four words, each alone. A growth number is no cause of 9.
fn causes(packet: &[u8]) -> Vec<Cause> {
    let [first, route, growth, block] = [0, 1, 2, 3].map(|place| word(packet, place));
    let mut causes = Vec::new();
    for (place, word) in [first, route, growth, block].into_iter().enumerate() {
        causes.extend(wrong_kinds(place, word));
    }
    causes.extend(set_bits(1, route, 0..4));
    // The number of kept stripes is a multiple of 4, so sender and receiver still fit.
    let w = first & 0x0FFF_FFFF;
    causes.extend(fields("w", 0, first, 0..28, [w + KEPT as u32, w + 3 * KEPT as u32, (1 << 28) - 4 + w % 4]));
    causes.extend(fields("item", 1, route, ITEM, [TRANSFERS, TRANSFERS + 1, 32, 255]));
    let beyond = with_field(with_field(route, ITEM, TRANSFERS), RECEIVER, NODES as u32);
    causes.push(Cause::new("the item after the last, to the node after the last", &[(1, beyond)]));
    let others = |own: usize| (0..NODES as u32 + 2).chain([255]).filter(move |node| *node != own as u32);
    causes.extend(fields("sender", 1, route, SENDER, others(sender(packet))));
    causes.extend(fields("receiver", 1, route, RECEIVER, others(receiver(packet))));
    causes.extend(fields("B", 3, block, 0..28, [0, 1, 3, 4096, Z.b as u32 + (1 << 27)]));
    causes
}

/// The nodes where a packet may arrive.
fn other_nodes(own: usize) -> impl Iterator<Item = usize> {
    (0..NODES).filter(move |node| *node != own)
}

#[test]
fn messages_have_the_kind_of_their_transfer() {
    for (sound, kind) in messages() {
        assert_eq!(word(&sound.lent.message, 0) >> 28, kind);
        sound.answers(0, "nothing wrong", |_| ());
    }
}

#[test]
fn a_malformed_message() {
    for (sound, _) in messages() {
        for cause in causes(&sound.lent.message) {
            sound.answers(9, &cause.name, |lent| cause.in_bytes(&mut lent.message));
        }
    }
}

/// Where the receiver that the message names takes it in, and the layout gives another.
#[test]
fn a_message_with_another_receiver_at_that_node() {
    for (mut sound, _) in messages() {
        let route = word(&sound.lent.message, 1);
        for node in other_nodes(receiver(&sound.lent.message)) {
            sound.call = Call::Deliver { node };
            let cause = &fields("receiver", 1, route, RECEIVER, [node as u32])[0];
            sound.answers(9, &cause.name, |lent| cause.in_bytes(&mut lent.message));
        }
    }
}

/// Item and receiver fit each other, the kind does not: a block in place of a change, a parity row in place of a block.
#[test]
fn a_message_with_the_transfer_of_another_kind() {
    for (mut sound, kind) in messages() {
        for (other, _) in messages().into_iter().filter(|(_, other)| *other != kind) {
            let found = word(&other.lent.message, 0);
            let cause = Cause::new("another transfer", &[(0, with_field(found, 28..32, kind)), (1, word(&other.lent.message, 1))]);
            sound.call = other.call;
            sound.answers(9, &cause.name, |lent| cause.in_bytes(&mut lent.message));
        }
    }
}

#[test]
fn a_good_message_at_another_node() {
    for (mut sound, _) in messages() {
        for node in other_nodes(receiver(&sound.lent.message)) {
            sound.call = Call::Deliver { node };
            sound.answers(9, "another node", |_| ());
        }
    }
}

#[test]
fn a_malformed_receipt() {
    let sound = returning();
    assert_eq!(word(&sound.lent.receipt, 0), 4 << 28 | ACCEPTED as u32);
    sound.answers(0, "nothing wrong", |_| ());
    for cause in causes(&sound.lent.receipt) {
        sound.answers(9, &cause.name, |lent| cause.in_bytes(&mut lent.receipt));
    }
}

/// Where the sender that the receipt names takes it in, and the layout gives another.
#[test]
fn a_receipt_with_another_sender_at_that_node() {
    let mut sound = returning();
    let route = word(&sound.lent.receipt, 1);
    for node in other_nodes(sender(&sound.lent.receipt)) {
        sound.call = Call::Receipt { node };
        let cause = &fields("sender", 1, route, SENDER, [node as u32])[0];
        sound.answers(9, &cause.name, |lent| cause.in_bytes(&mut lent.receipt));
    }
}

#[test]
fn a_good_receipt_at_another_node() {
    let mut sound = returning();
    for node in other_nodes(sender(&sound.lent.receipt)) {
        sound.call = Call::Receipt { node };
        sound.answers(9, "another node", |_| ());
    }
}

/// The next cause in the order: a growth number that is well-formed and another one's.
#[test]
fn another_growth_number_is_no_cause() {
    let (message, receipt) = (arriving(COMPUTED, 0, 0), returning());
    for number in [0, 6, 8, (1 << 28) - 1] {
        let cause = Cause::new("another growth number", &[(2, 9 << 28 | number)]);
        message.answers(10, &cause.name, |lent| cause.in_bytes(&mut lent.message));
        receipt.answers(10, &cause.name, |lent| cause.in_bytes(&mut lent.receipt));
    }
}
