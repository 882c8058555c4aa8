//! The link: what is put on it may be lost, may come again and again, in any order, and at a wrong node.

use crate::common::messages::{receiver, sender};
use crate::common::random::Random;
use crate::growth::Growth;
use taldrimsu::{Refusal, Step};

#[derive(Default)]
pub struct Link {
    messages: Vec<Vec<u8>>,
    receipts: Vec<Vec<u8>>,
}

/// One in three is lost.
fn put(random: &mut Random, list: &mut Vec<Vec<u8>>, packet: Vec<u8>) {
    if !random.one_in(3) {
        list.push(packet);
    }
}

/// Any packet; one in three stays on the link and comes again.
fn take(random: &mut Random, list: &mut Vec<Vec<u8>>) -> Option<Vec<u8>> {
    if list.is_empty() {
        return None;
    }
    let place = random.below(list.len());
    Some(if random.one_in(3) { list[place].clone() } else { list.swap_remove(place) })
}

/// The node where a packet arrives: one in ten goes anywhere.
fn arrival(random: &mut Random, growth: &Growth, addressed: usize) -> usize {
    if random.one_in(10) {
        random.below(growth.z.nodes())
    } else {
        addressed
    }
}

impl Link {
    /// Somebody does something, be it of use or not.
    pub fn turn(&mut self, random: &mut Random, growth: &mut Growth) {
        let w = random.below(growth.z.kept());
        match random.below(100) {
            0..=9 => assert!(growth.compute(w).is_ok()),
            10..=39 => self.send(random, growth, w),
            40..=64 => self.deliver(random, growth),
            65..=89 => self.receipt(random, growth),
            90..=97 => self.release(growth, w),
            98 => assert_eq!(growth.close(), Err(Refusal::Unfinished)),
            _ => {
                let limit = random.below(4);
                growth.drive(limit);
            }
        }
    }

    fn send(&mut self, random: &mut Random, growth: &mut Growth, w: usize) {
        let e = random.below(growth.z.transfers());
        match growth.send(w, e) {
            Ok(message) => put(random, &mut self.messages, message),
            Err(refusal) => assert!(matches!(refusal, Refusal::NotComputed | Refusal::Released)),
        }
    }

    fn deliver(&mut self, random: &mut Random, growth: &mut Growth) {
        let Some(message) = take(random, &mut self.messages) else { return };
        let node = arrival(random, growth, receiver(&message));
        let answer = growth.deliver(node, &message);
        assert_eq!(answer.as_ref().err(), (node != receiver(&message)).then_some(&Refusal::Malformed));
        if let Ok((_, receipt)) = answer {
            put(random, &mut self.receipts, receipt);
        }
    }

    fn receipt(&mut self, random: &mut Random, growth: &mut Growth) {
        let Some(receipt) = take(random, &mut self.receipts) else { return };
        let node = arrival(random, growth, sender(&receipt));
        let answer = growth.receipt(node, &receipt);
        assert_eq!(answer.err(), (node != sender(&receipt)).then_some(Refusal::Malformed));
    }

    fn release(&mut self, growth: &mut Growth, w: usize) {
        if let Err(refusal) = growth.release(w) {
            assert!(matches!(refusal, Refusal::NotComputed | Refusal::Unfinished));
        }
    }

    /// Every stripe is released and the growth still open: what is still on the link is taken, and changes nothing.
    pub fn repeats(&self, growth: &mut Growth) {
        let before = (growth.cells.clone(), growth.book.clone());
        for message in &self.messages {
            assert_eq!(growth.deliver(receiver(message), message).unwrap().0, Step::Already);
        }
        for receipt in &self.receipts {
            assert_eq!(growth.receipt(sender(receipt), receipt), Ok(Step::Already));
        }
        assert!(before == (growth.cells.clone(), growth.book.clone()));
    }

    /// The growth is closed: what is still on the link is refused.
    pub fn too_late(&self, growth: &mut Growth) {
        let before = (growth.cells.clone(), growth.book.clone());
        for message in &self.messages {
            assert_eq!(growth.deliver(receiver(message), message), Err(Refusal::Closed));
        }
        for receipt in &self.receipts {
            assert_eq!(growth.receipt(sender(receipt), receipt), Err(Refusal::Closed));
        }
        assert!(before == (growth.cells.clone(), growth.book.clone()));
    }
}
