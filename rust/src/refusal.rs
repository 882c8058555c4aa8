//! Why a call said no.

use std::fmt;

/// A refusal. A call that is refused has written nothing.
#[derive(Clone, Copy, Debug, PartialEq, Eq, Hash, PartialOrd, Ord)]
#[repr(u8)]
pub enum Refusal {
    /// 1: the shape is outside its ranges.
    Shape = 1,
    /// 2: s(r−1) > n, there are too many new nodes for the old ones.
    TooManyNewNodes = 2,
    /// 3: a slice does not have the length that the shape requires.
    Length = 3,
    /// 4: the journal is damaged, or it is the journal of another shape.
    DamagedBook = 4,
    /// 5: a number, node, stripe, column, transfer or loss byte is out of range.
    OutOfRange = 5,
    /// 6: the stripe is not computed yet.
    NotComputed = 6,
    /// 7: the stripe is released already, its transfers cannot be sent again.
    Released = 7,
    /// 8: transfers of the stripe are unreceipted, or stripes are unreleased.
    Unfinished = 8,
    /// 9: the message or receipt is malformed, or for another node.
    Malformed = 9,
    /// 10: the message or receipt is of another growth.
    OtherGrowth = 10,
    /// 11: more than one set of data agrees with the present blocks.
    Ambiguous = 11,
    /// 12: no data agrees with the present blocks, a block is damaged.
    Inconsistent = 12,
    /// 13: the growth is closed already.
    Closed = 13,
}

const ALL: [Refusal; 13] = [
    Refusal::Shape,
    Refusal::TooManyNewNodes,
    Refusal::Length,
    Refusal::DamagedBook,
    Refusal::OutOfRange,
    Refusal::NotComputed,
    Refusal::Released,
    Refusal::Unfinished,
    Refusal::Malformed,
    Refusal::OtherGrowth,
    Refusal::Ambiguous,
    Refusal::Inconsistent,
    Refusal::Closed,
];

impl Refusal {
    /// The refusal's number, 1 to 13.
    pub fn number(self) -> u8 {
        self as u8
    }

    /// The refusal with this number, if there is one.
    pub fn from_number(number: u8) -> Option<Refusal> {
        ALL.into_iter().find(|refusal| refusal.number() == number)
    }

    /// A short name in words.
    pub fn name(self) -> &'static str {
        match self {
            Refusal::Shape => "shape out of range",
            Refusal::TooManyNewNodes => "too many new nodes",
            Refusal::Length => "wrong length",
            Refusal::DamagedBook => "damaged journal",
            Refusal::OutOfRange => "out of range",
            Refusal::NotComputed => "not computed",
            Refusal::Released => "released",
            Refusal::Unfinished => "unfinished",
            Refusal::Malformed => "malformed",
            Refusal::OtherGrowth => "other growth",
            Refusal::Ambiguous => "ambiguous",
            Refusal::Inconsistent => "inconsistent",
            Refusal::Closed => "closed",
        }
    }

    fn sentence(self) -> &'static str {
        match self {
            Refusal::Shape => {
                "the shape is outside its ranges (1 <= k < n, n-k <= 4, s >= 1, n+s <= 20 or n <= 20 in rebuild, blocks of 1 to 4096 bytes)"
            }
            Refusal::TooManyNewNodes => "there are too many new nodes for the old ones: s times (n-k-1) exceeds n",
            Refusal::Length => "a buffer does not have the length that the shape requires",
            Refusal::DamagedBook => "the journal is damaged, or it is the journal of another shape",
            Refusal::OutOfRange => "a number, node, stripe, column, transfer or loss byte is out of range",
            Refusal::NotComputed => "the stripe is not computed yet",
            Refusal::Released => "the stripe is released; its transfers cannot be sent again",
            Refusal::Unfinished => "some transfers of the stripe have no receipt yet, or some stripes are not released yet",
            Refusal::Malformed => "the message or receipt is malformed, or it is for another node",
            Refusal::OtherGrowth => "the message or receipt has the number of another growth",
            Refusal::Ambiguous => "more than one set of data agrees with the blocks that are present",
            Refusal::Inconsistent => "no data agrees with the blocks that are present: a block is damaged or a parity row is wrong",
            Refusal::Closed => "the growth is closed already",
        }
    }
}

impl fmt::Display for Refusal {
    fn fmt(&self, f: &mut fmt::Formatter<'_>) -> fmt::Result {
        f.write_str(self.sentence())
    }
}

impl std::error::Error for Refusal {}
