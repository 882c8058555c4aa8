//! Things that can be wrong, each with a name: some words of a journal, message or receipt are others.

use std::ops::Range;

#[derive(Clone)]
pub struct Cause {
    pub name: String,
    /// Places, counted in words, and what stands there instead.
    pub words: Vec<(usize, u32)>,
}

impl Cause {
    pub fn new(name: &str, words: &[(usize, u32)]) -> Cause {
        Cause { name: name.into(), words: words.to_vec() }
    }

    pub fn in_words(&self, words: &mut [u32]) {
        for &(place, word) in &self.words {
            words[place] = word;
        }
    }

    /// The same in bytes, low byte first.
    pub fn in_bytes(&self, bytes: &mut [u8]) {
        for (place, word) in &self.words {
            bytes[4 * place..4 * place + 4].copy_from_slice(&word.to_le_bytes());
        }
    }
}

/// Every kind but the word's own.
pub fn wrong_kinds(place: usize, word: u32) -> Vec<Cause> {
    let others = (0..16).filter(|kind| *kind != word >> 28);
    fields(&format!("word {place}, kind"), place, word, 28..32, others)
}

/// Each of these bits, which are 0 in the word, set alone.
pub fn set_bits(place: usize, word: u32, bits: Range<u32>) -> Vec<Cause> {
    bits.map(|bit| Cause::new(&format!("word {place}, bit {bit}"), &[(place, word | 1 << bit)])).collect()
}

/// The field in these bits of the word has each of the values.
pub fn fields(name: &str, place: usize, word: u32, bits: Range<u32>, values: impl IntoIterator<Item = u32>) -> Vec<Cause> {
    values.into_iter().map(|value| Cause::new(&format!("{name} {value}"), &[(place, with_field(word, bits.clone(), value))])).collect()
}

pub fn with_field(word: u32, bits: Range<u32>, value: u32) -> u32 {
    let ones = (1u64 << bits.end) - (1u64 << bits.start);
    word & !(ones as u32) | value << bits.start
}
