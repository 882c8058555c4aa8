//! The refusals as a type: numbers, names and sentences.

use std::collections::BTreeSet;
use taldrimsu::Refusal;

#[test]
fn there_is_one_for_each_number() {
    for number in 1..=13 {
        let refusal = Refusal::from_number(number).expect("a refusal");
        assert_eq!(refusal.number(), number);
    }
    for number in (14..=255).chain([0]) {
        assert_eq!(Refusal::from_number(number), None);
    }
}

#[test]
fn names_and_sentences_tell_them_apart() {
    let all: Vec<Refusal> = (1..=13).filter_map(Refusal::from_number).collect();
    let names: BTreeSet<&str> = all.iter().map(|refusal| refusal.name()).collect();
    let sentences: BTreeSet<String> = all.iter().map(|refusal| refusal.to_string()).collect();
    assert_eq!((names.len(), sentences.len()), (13, 13));
}

/// Callers match on the variants, so each must keep its number.
#[test]
fn variants_have_the_numbers_of_document_01() {
    let listed = [
        (Refusal::Shape, 1),
        (Refusal::TooManyNewNodes, 2),
        (Refusal::Length, 3),
        (Refusal::DamagedBook, 4),
        (Refusal::OutOfRange, 5),
        (Refusal::NotComputed, 6),
        (Refusal::Released, 7),
        (Refusal::Unfinished, 8),
        (Refusal::Malformed, 9),
        (Refusal::OtherGrowth, 10),
        (Refusal::Ambiguous, 11),
        (Refusal::Inconsistent, 12),
        (Refusal::Closed, 13),
    ];
    for (refusal, number) in listed {
        assert_eq!(refusal.number(), number, "{}", refusal.name());
    }
}
