//! The bad link: it loses, repeats, shuffles and misdirects what it is given. It never alters bytes; that is outside what the
//! library is for.

use crate::chance::Chance;

/// One in so many is lost, repeated, misdirected.
pub const LOST: usize = 4;
pub const REPEATED: usize = 5;
pub const MISDIRECTED: usize = 12;

/// What the header of a message or receipt says: words of four bytes, low byte first; the first has the stripe, the second the route.
pub struct Header {
    pub stripe: usize,
    pub sender: usize,
    pub receiver: usize,
    pub transfer: usize,
    /// 1 for the change of a parity row.
    pub kind: u32,
}

pub fn header(bytes: &[u8]) -> Header {
    let word = |at: usize| u32::from_le_bytes([bytes[at], bytes[at + 1], bytes[at + 2], bytes[at + 3]]);
    let field = |shift: u32| ((word(4) >> shift) & 0xFF) as usize;
    Header { stripe: (word(0) & 0x0FFF_FFFF) as usize, sender: field(20), receiver: field(12), transfer: field(4), kind: word(0) >> 28 }
}

#[derive(Clone, Copy, PartialEq, Eq)]
pub enum Content {
    Message,
    Receipt,
}

/// Something on its way to a node.
pub struct Parcel {
    pub content: Content,
    pub bytes: Vec<u8>,
    /// The node that it comes to.
    pub node: usize,
    /// Whether that is another node than the one that it is for.
    pub misdirected: bool,
    /// When it was sent.
    number: usize,
}

pub struct Link {
    chance: Chance,
    nodes: usize,
    on_the_way: Vec<Parcel>,
    pub sent: usize,
    pub lost: usize,
    pub repeated: usize,
    /// Parcels that came after one that was sent later.
    pub shuffled: usize,
    /// The number of the latest sent parcel that has come.
    latest: usize,
}

impl Link {
    pub fn new(nodes: usize, chance: Chance) -> Link {
        Link { chance, nodes, on_the_way: Vec::new(), sent: 0, lost: 0, repeated: 0, shuffled: 0, latest: 0 }
    }

    /// A message goes to its receiver, a receipt back to the sender of its message, if the link does not fail.
    pub fn send(&mut self, content: Content, bytes: &[u8]) {
        self.sent += 1;
        if self.chance.one_in(LOST) {
            self.lost += 1;
            return;
        }
        self.put(content, bytes);
        if self.chance.one_in(REPEATED) {
            self.repeated += 1;
            self.put(content, bytes);
        }
    }

    fn put(&mut self, content: Content, bytes: &[u8]) {
        let Header { sender, receiver, .. } = header(bytes);
        let right = if content == Content::Message { receiver } else { sender };
        let misdirected = self.chance.one_in(MISDIRECTED);
        let node = if misdirected { (right + 1 + self.chance.below(self.nodes - 1)) % self.nodes } else { right };
        self.on_the_way.push(Parcel { content, bytes: bytes.to_vec(), node, misdirected, number: self.sent });
    }

    /// Any parcel that is on the way comes next.
    pub fn take(&mut self) -> Option<Parcel> {
        if self.on_the_way.is_empty() {
            return None;
        }
        let parcel = self.on_the_way.swap_remove(self.chance.below(self.on_the_way.len()));
        if parcel.number < self.latest {
            self.shuffled += 1;
        }
        self.latest = self.latest.max(parcel.number);
        Some(parcel)
    }
}

#[cfg(test)]
mod tests {
    use super::*;

    /// The message of docs/FORMAT.md: transfer 1 of stripe 0 of (4,2,1), from node 0 to node 4.
    const MESSAGE: [u8; 16] = [0, 0, 0, 0x20, 0x10, 0x40, 0, 0x50, 7, 0, 0, 0x90, 2, 0, 0, 0x80];

    #[test]
    fn the_header_is_read_as_the_format_says() {
        let Header { stripe, sender, receiver, transfer, kind } = header(&MESSAGE);
        assert_eq!((stripe, sender, receiver, transfer, kind), (0, 0, 4, 1, 2));
    }

    #[test]
    fn the_link_does_all_that_a_bad_link_does() {
        let mut link = Link::new(5, Chance::new(1));
        for _ in 0..1000 {
            link.send(Content::Message, &MESSAGE);
            link.send(Content::Receipt, &MESSAGE);
        }
        let mut come = [0; 2];
        let mut misdirected = 0;
        while let Some(parcel) = link.take() {
            let right = if parcel.content == Content::Message { 4 } else { 0 };
            assert_eq!(parcel.misdirected, parcel.node != right);
            assert!(parcel.node < 5 && parcel.bytes == MESSAGE);
            come[usize::from(parcel.content == Content::Receipt)] += 1;
            misdirected += usize::from(parcel.misdirected);
        }
        assert_eq!(link.sent, 2000);
        assert_eq!(come[0] + come[1], link.sent - link.lost + link.repeated);
        assert!(come[0] > 500 && come[1] > 500);
        assert!(link.lost > 300 && link.repeated > 200 && link.shuffled > 1000 && misdirected > 50);
    }
}
