//! What can go wrong with what calls are lent: journals, messages, receipts and lengths.

use crate::common::random::Random;
use crate::stores::{COMPUTED, RELEASED};
use taldrimsu::Shape;

/// Damages the journal in one place; `w` is the stripe that the call will look at.
pub fn journal(random: &mut Random, z: Shape, book: &mut [u32], w: usize) {
    let header = random.below(4);
    let touched = 4 + 2 * w + random.below(2);
    let any = random.below(book.len());
    let place = random.pick(&[header, touched, any]);
    let stripe = if random.one_in(2) { w } else { random.below(z.kept()) };
    match random.below(8) {
        0 | 1 => book[place] ^= 1 << random.below(32),
        2 => book[place] = (book[place] & 0x0FFF_FFFF) | (random.next() as u32) << 28,
        3 => book.swap(place, any),
        4 => book[0] = (book[0] & 0xF0FF_FFFF) | random.pick(&[0, 1, 2, 2, 2, 3, 15]) << 24,
        5 => book[2] = (9 << 28) | (random.next() as u32 >> 4),
        6 => book[3] = count(random, z, book[3]),
        _ => marks(random, z, book, stripe),
    }
}

/// Another count: about the right one, about the total, or far off.
fn count(random: &mut Random, z: Shape, word: u32) -> u32 {
    let found = word & 0x0FFF_FFFF;
    let total = z.all_transfers() as u32;
    let other = random.pick(&[0, found + 1, found.wrapping_sub(1), total - 1, total, total, total + 1, 0x0FFF_FFFF]);
    (12 << 28) | (other & 0x0FFF_FFFF)
}

/// Changes marks of one stripe, mostly with the count that fits, so that only the rules about marks can speak against the journal.
fn marks(random: &mut Random, z: Shape, book: &mut [u32], w: usize) {
    let e = random.below(z.transfers());
    let before = book[4 + 2 * w].count_ones();
    match random.below(6) {
        0 => book[4 + 2 * w] ^= 1 << e,
        1 => book[5 + 2 * w] ^= 1 << e,
        2 => book[5 + 2 * w] ^= COMPUTED,
        3 => book[5 + 2 * w] ^= RELEASED,
        4 => book[5 + 2 * w] ^= RELEASED | COMPUTED,
        _ => {
            book[4 + 2 * w] ^= 1 << e;
            book[5 + 2 * w] ^= 1 << e;
        }
    }
    if !random.one_in(4) {
        book[3] = book[3].wrapping_add(book[4 + 2 * w].count_ones()).wrapping_sub(before);
    }
}

/// Damages a message or receipt, its four words above all; a payload may be anything.
pub fn message(random: &mut Random, z: Shape, bytes: &mut [u8]) {
    let place = random.below(4);
    let found = word(bytes, place);
    match random.below(9) {
        0 | 1 => set_word(bytes, place, found ^ 1 << random.below(32)),
        2 => set_word(bytes, place, (found & 0x0FFF_FFFF) | (random.next() as u32) << 28),
        3 => set_word(bytes, 0, (word(bytes, 0) & 0xF000_0000) | random.near(z.kept()) as u32 & 0x0FFF_FFFF),
        4 => set_word(bytes, 1, route(random, z)),
        5 | 6 => set_word(bytes, 2, (9 << 28) | (random.next() as u32 >> 4)),
        7 => set_word(bytes, 3, (8 << 28) | random.pick(&[0, z.b as u32 + 1, 4096])),
        _ => {
            let place = random.below(bytes.len());
            bytes[place] = random.byte();
        }
    }
}

/// A kind 5 word whose numbers are mostly in range, but need not fit together.
fn route(random: &mut Random, z: Shape) -> u32 {
    let (sender, receiver, transfer) = (random.below(z.n), random.below(z.nodes()), random.near(z.transfers()) & 0xFF);
    (5 << 28) | ((sender << 20) | (receiver << 12) | (transfer << 4)) as u32
}

fn word(bytes: &[u8], place: usize) -> u32 {
    let start = 4 * place;
    u32::from_le_bytes([bytes[start], bytes[start + 1], bytes[start + 2], bytes[start + 3]])
}

fn set_word(bytes: &mut [u8], place: usize, word: u32) {
    bytes[4 * place..4 * place + 4].copy_from_slice(&word.to_le_bytes());
}

/// Another length.
pub fn length<T: Copy + Default>(random: &mut Random, list: &mut Vec<T>) {
    match random.below(4) {
        0 => list.truncate(list.len() - 1),
        1 => list.truncate(random.below(list.len())),
        2 => list.clear(),
        _ => list.extend(vec![T::default(); 1 + random.below(16)]),
    }
}
