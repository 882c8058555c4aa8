//! A growth over the bad link, by single calls and then by drive.

use crate::chance::Chance;
use crate::failure::{ensure, refused, Failure};
use crate::link::{header, Content, Link, Parcel};
use crate::progress::{Counts, Progress};
use crate::repeat::{self, Repeat};
use crate::store::Store;
use crate::stripe::cell;
use taldrimsu::{begin, close, compute, deliver, drive, receipt, release, send, status, Drive, Refusal, Shape, State, Step};

/// The three parts of a growth, as the table of counts names them.
pub const BY_CHANCE: &str = "chance";
pub const AGAIN: &str = "again";
pub const DRIVE: &str = "drive";

/// What a growth leaves to be told.
pub struct Grown {
    pub by_calls: usize,
    pub by_drive: usize,
    /// Bytes of traces that were read and compared half way.
    pub compared: usize,
    pub repeat: Option<Repeat>,
}

/// Grows the store from begin to close.
pub fn grow<'a>(store: &'a mut Store, chance: &'a mut Chance, progress: Progress<'a>) -> Result<Grown, Failure> {
    let z = store.z;
    begin(z, &mut store.cells, &mut store.journal, chance.below(1 << 28)).map_err(refused("begin"))?;
    let link = Link::new(z.nodes(), chance.branch());
    let mut growth = Growth { z, store, link, chance, progress, misdirected: 0, already: 0, accepted: 0, message: None };
    growth.by_chance()?;
    let compared = growth.store.compare_traces()?;
    growth.again()?;
    let by_calls = growth.accepted;
    growth.by_drive()?;
    let by_drive = growth.accepted - by_calls;
    let repeat = growth.message.take().map(|message| repeat::repeat(growth.store, message)).transpose()?;
    growth.finish()?;
    Ok(Grown { by_calls, by_drive, compared, repeat })
}

struct Growth<'a> {
    z: Shape,
    store: &'a mut Store,
    link: Link,
    chance: &'a mut Chance,
    progress: Progress<'a>,
    misdirected: usize,
    already: usize,
    accepted: usize,
    /// A change of parity row 1 that was sent, to be repeated at the end.
    message: Option<Vec<u8>>,
}

impl Growth<'_> {
    /// Senders do whatever comes next at stripes in no order, and things arrive now and then, until half of the transfers are accepted.
    fn by_chance(&mut self) -> Result<(), Failure> {
        while self.accepted < self.z.all_transfers() / 2 {
            let w = self.chance.below(self.z.kept());
            self.advance(w)?;
            if !self.chance.one_in(3) {
                self.arrive()?;
            }
            self.show(BY_CHANCE)?;
        }
        self.end(BY_CHANCE)
    }

    /// The next step at a stripe: compute it, send one of its transfers, or release it.
    fn advance(&mut self, w: usize) -> Result<(), Failure> {
        if !self.computed(w) {
            return self.compute(w);
        }
        let open = self.unreceipted(w);
        if open.is_empty() {
            return self.release(w);
        }
        let e = open[self.chance.below(open.len())];
        self.send(w, e)
    }

    /// Round after round, whatever has no receipt is sent again, until three quarters of the stripes are released. The others are
    /// left for drive.
    fn again(&mut self) -> Result<(), Failure> {
        let stripes = 0..self.z.kept() * 3 / 4;
        while !stripes.clone().all(|w| self.released(w)) {
            for w in stripes.clone() {
                if !self.computed(w) {
                    self.compute(w)?;
                }
                for e in self.unreceipted(w) {
                    self.send(w, e)?;
                }
            }
            while self.arrive()? {
                self.show(AGAIN)?;
            }
            for w in stripes.clone() {
                if self.unreceipted(w).is_empty() {
                    self.release(w)?;
                }
            }
        }
        self.end(AGAIN)
    }

    /// Drive takes the rest, a part at a time.
    fn by_drive(&mut self) -> Result<(), Failure> {
        let limit = self.z.all_transfers().div_ceil(32);
        let mut space = vec![0; self.z.drive_space_len()];
        loop {
            let step = drive(self.z, &mut self.store.cells, &mut self.store.journal, limit, &mut space).map_err(refused("drive"))?;
            let (Drive::Spent(accepted) | Drive::Finished(accepted)) = step;
            self.accepted += accepted;
            self.show(DRIVE)?;
            if step == Drive::Finished(accepted) {
                return self.end(DRIVE);
            }
        }
    }

    /// Closes, and holds the journal's count to the transfers that were seen to be accepted.
    fn finish(&mut self) -> Result<(), Failure> {
        close(self.z, &mut self.store.cells, &mut self.store.journal).map_err(refused("close"))?;
        let told = status(self.z, &self.store.journal).map_err(refused("status"))?;
        let all = self.z.all_transfers();
        ensure(told.state == State::Closed, || "the growth is still open after close".into())?;
        ensure(told.accepted == all, || format!("the journal counts {} accepted transfers, not {all}", told.accepted))?;
        ensure(self.accepted == all, || format!("{} transfers were seen to be accepted, not {all}", self.accepted))
    }

    fn compute(&mut self, w: usize) -> Result<(), Failure> {
        compute(self.z, &mut self.store.cells, &mut self.store.journal, w).map(|_| ()).map_err(refused("compute"))
    }

    fn release(&mut self, w: usize) -> Result<(), Failure> {
        release(self.z, &mut self.store.cells, &mut self.store.journal, w).map(|_| ()).map_err(refused("release"))
    }

    fn send(&mut self, w: usize, e: usize) -> Result<(), Failure> {
        let mut message = vec![0; self.z.message_len()];
        send(self.z, &self.store.cells, &self.store.journal, w, e, &mut message).map_err(refused("send"))?;
        if self.message.is_none() && repeat::is_telling(self.store, &message) {
            self.message = Some(message.clone());
        }
        self.link.send(Content::Message, &message);
        Ok(())
    }

    /// Hands the next thing that comes over the link to the node that it comes to. False if nothing is on the way.
    fn arrive(&mut self) -> Result<bool, Failure> {
        let Some(parcel) = self.link.take() else { return Ok(false) };
        let answer = match parcel.content {
            Content::Message => self.deliver(&parcel)?,
            Content::Receipt => receipt(self.z, &mut self.store.journal, parcel.node, &parcel.bytes),
        };
        match answer {
            Ok(_) if parcel.misdirected => Err(Failure::failed(format!("node {} took what is for another node", parcel.node))),
            Ok(Step::Already) => {
                self.already += 1;
                Ok(true)
            }
            Ok(Step::Done) => {
                self.accepted += usize::from(parcel.content == Content::Message);
                Ok(true)
            }
            Err(Refusal::Malformed) if parcel.misdirected => {
                self.misdirected += 1;
                Ok(true)
            }
            Err(refusal) => Err(refused("what came over the link")(refusal)),
        }
    }

    /// Delivers a message and sends its receipt back. A repeat must leave the receiver's cell as it is.
    fn deliver(&mut self, parcel: &Parcel) -> Result<Result<Step, Refusal>, Failure> {
        let own = cell(self.z, (parcel.node, header(&parcel.bytes).stripe));
        let before = self.store.cells[own.clone()].to_vec();
        let mut receipt = [0; Shape::RECEIPT_LEN];
        let answer = deliver(self.z, &mut self.store.cells, &mut self.store.journal, parcel.node, &parcel.bytes, &mut receipt);
        if answer != Ok(Step::Done) {
            ensure(self.store.cells[own] == before, || format!("node {} changed its cell for a repeat or a refused message", parcel.node))?;
        }
        if answer.is_ok() {
            self.link.send(Content::Receipt, &receipt);
        }
        Ok(answer)
    }

    /// The sender's word of a stripe in the journal: a bit for each receipted transfer, bit 26 computed, bit 27 released.
    fn sender_word(&self, w: usize) -> u32 {
        self.store.journal[5 + 2 * w]
    }

    fn computed(&self, w: usize) -> bool {
        self.sender_word(w) >> 26 & 1 == 1
    }

    fn released(&self, w: usize) -> bool {
        self.sender_word(w) >> 27 & 1 == 1
    }

    fn unreceipted(&self, w: usize) -> Vec<usize> {
        (0..self.z.transfers()).filter(|e| self.sender_word(w) >> e & 1 == 0).collect()
    }

    fn show(&mut self, by: &str) -> Result<(), Failure> {
        if self.progress.due(self.accepted) {
            let counts = self.counts();
            self.progress.show(by, &counts)?;
        }
        Ok(())
    }

    fn end(&mut self, by: &str) -> Result<(), Failure> {
        let counts = self.counts();
        Ok(self.progress.end(by, &counts)?)
    }

    fn counts(&self) -> Counts {
        let Link { sent, lost, repeated, shuffled, .. } = self.link;
        let released = (0..self.z.kept()).filter(|w| self.released(*w)).count();
        Counts { sent, lost, repeated, shuffled, misdirected: self.misdirected, already: self.already, accepted: self.accepted, released }
    }
}
