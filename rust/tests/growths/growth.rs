//! A growth under way and what its calls answered so far.

use crate::common::messages::{receiver, sender, stripe, transfer};
use crate::common::random::Random;
use taldrimsu::{Drive, Refusal, Shape, State, Status, Step};

pub struct Growth {
    pub z: Shape,
    pub cells: Vec<u8>,
    pub book: Vec<u32>,
    /// Block (g, d), at g×k+d, as it was when begin accepted.
    pub old: Vec<Vec<u8>>,
    /// For each transfer, at w×(s+r−1)+e, how often it was accepted.
    pub accepted: Vec<usize>,
    /// Delivers done outside drives, and the sum of the numbers that the drives carried.
    pub delivered: usize,
    pub driven: usize,
}

impl Growth {
    pub fn begun(random: &mut Random, z: Shape) -> Growth {
        let mut cells = random.bytes(z.cells_len());
        let mut book = random.words(z.book_len());
        let old = (0..z.stripes() * z.k)
            .map(|block| z.data_place(block / z.k, block % z.k))
            .map(|(node, slot)| cells[z.cell_offset(node, slot)..][..z.b].to_vec())
            .collect();
        taldrimsu::encode(z, &mut cells).unwrap();
        taldrimsu::begin(z, &mut cells, &mut book, random.below(1 << 28)).unwrap();
        Growth { z, cells, book, old, accepted: vec![0; z.all_transfers()], delivered: 0, driven: 0 }
    }

    pub fn compute(&mut self, w: usize) -> Result<Step, Refusal> {
        taldrimsu::compute(self.z, &mut self.cells, &mut self.book, w)
    }

    pub fn send(&mut self, w: usize, e: usize) -> Result<Vec<u8>, Refusal> {
        let mut message = vec![0; self.z.message_len()];
        taldrimsu::send(self.z, &self.cells, &self.book, w, e, &mut message)?;
        Ok(message)
    }

    /// The answer and the receipt.
    pub fn deliver(&mut self, node: usize, message: &[u8]) -> Result<(Step, Vec<u8>), Refusal> {
        let mut receipt = vec![0; Shape::RECEIPT_LEN];
        let step = taldrimsu::deliver(self.z, &mut self.cells, &mut self.book, node, message, &mut receipt)?;
        if step == Step::Done {
            self.accepted[stripe(message) * self.z.transfers() + transfer(message)] += 1;
            self.delivered += 1;
        }
        Ok((step, receipt))
    }

    pub fn receipt(&mut self, node: usize, receipt: &[u8]) -> Result<Step, Refusal> {
        taldrimsu::receipt(self.z, &mut self.book, node, receipt)
    }

    pub fn release(&mut self, w: usize) -> Result<Step, Refusal> {
        taldrimsu::release(self.z, &mut self.cells, &mut self.book, w)
    }

    /// A drive: the transfers that are marked afterwards and were not before are as many as it says.
    pub fn drive(&mut self, limit: usize) -> Drive {
        let mut space = vec![0; self.z.drive_space_len()];
        let before: Vec<bool> = self.marks();
        let answer = taldrimsu::drive(self.z, &mut self.cells, &mut self.book, limit, &mut space).unwrap();
        let new: Vec<usize> = self.marks().into_iter().enumerate().filter(|&(i, mark)| mark && !before[i]).map(|(i, _)| i).collect();
        let (Drive::Spent(number) | Drive::Finished(number)) = answer;
        assert_eq!(number, new.len());
        assert!(number == limit || number < limit && answer == Drive::Finished(number));
        self.driven += number;
        new.into_iter().for_each(|i| self.accepted[i] += 1);
        answer
    }

    pub fn close(&mut self) -> Result<(), Refusal> {
        taldrimsu::close(self.z, &mut self.cells, &mut self.book)
    }

    /// The journal's marks of accepted transfers.
    fn marks(&self) -> Vec<bool> {
        let items = self.z.transfers();
        (0..self.z.all_transfers()).map(|i| self.book[4 + 2 * (i / items)] >> (i % items) & 1 == 1).collect()
    }

    fn sent_bit(&self, w: usize, bit: usize) -> bool {
        self.book[5 + 2 * w] >> bit & 1 == 1
    }

    /// The count is what the calls answered, and a block that is read now is what it was.
    pub fn check_under_way(&self, random: &mut Random) {
        let accepted = self.delivered + self.driven;
        assert_eq!(taldrimsu::status(self.z, &self.book), Ok(Status { state: State::Open, accepted }));
        let block = random.below(self.old.len());
        let (g, d) = (block / self.z.k, block % self.z.k);
        assert_eq!(taldrimsu::read(self.z, &self.cells, &self.book, g, d), Ok(&self.old[block][..]), "block {g} {d}");
    }

    pub fn finish_by_drive(&mut self) {
        let left = self.z.all_transfers() - self.delivered - self.driven;
        assert_eq!(self.drive(usize::MAX), Drive::Finished(left));
    }

    /// Not stranded: each step that is still to do is done once, the three steps of the transfers interleaved in any order; none is
    /// refused.
    pub fn finish_by_hand(&mut self, random: &mut Random) {
        for w in (0..self.z.kept()).filter(|&w| !self.sent_bit(w, 26)).collect::<Vec<_>>() {
            assert_eq!(self.compute(w), Ok(Step::Done));
        }
        let items = self.z.transfers();
        let unreceipted = (0..self.z.all_transfers()).filter(|i| !self.sent_bit(i / items, i % items));
        let mut turns: Vec<usize> = unreceipted.flat_map(|i| [i, i, i]).collect();
        random.shuffle(&mut turns);
        let mut under_way = vec![Vec::new(); self.z.all_transfers()];
        for i in turns {
            self.next_step(i / items, i % items, &mut under_way[i]);
        }
        for w in (0..self.z.kept()).filter(|&w| !self.sent_bit(w, 27)).collect::<Vec<_>>() {
            assert_eq!(self.release(w), Ok(Step::Done));
        }
    }

    /// Nothing under way: send. A message: deliver it at its receiver. A receipt: hand it to the sender.
    fn next_step(&mut self, w: usize, e: usize, under_way: &mut Vec<u8>) {
        if under_way.is_empty() {
            *under_way = self.send(w, e).unwrap();
        } else if under_way[3] >> 4 != 4 {
            *under_way = self.deliver(receiver(under_way), under_way).unwrap().1;
        } else {
            assert_eq!(self.receipt(sender(under_way), under_way), Ok(Step::Done));
        }
    }
}
