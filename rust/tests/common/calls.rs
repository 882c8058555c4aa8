//! A call as a value, run on the library; its answer is told as the number that the C function gives: a code and 256 times a value.
//!
//! Codes: 0 done, 1 to 13 the refusal's number, 32 already, 33 spent, 34 finished, 41 open, 42 closed.

use taldrimsu::{Drive, Refusal, Shape, State, Status, Step};

#[derive(Clone, Copy, Debug)]
pub enum Call {
    Encode,
    Begin { number: usize },
    Compute { w: usize },
    Send { w: usize, e: usize },
    Deliver { node: usize },
    Receipt { node: usize },
    Release { w: usize },
    Close,
    Status,
    Read { g: usize, d: usize },
    Drive { limit: usize },
}

/// All that calls are lent; each call takes of it what it needs. `message` is also the space of drive.
#[derive(Clone, PartialEq)]
pub struct Lent {
    pub cells: Vec<u8>,
    pub book: Vec<u32>,
    pub message: Vec<u8>,
    pub receipt: Vec<u8>,
}

/// The library's answer as the number that the C function gave.
pub fn library(z: Shape, call: Call, lent: &mut Lent) -> u64 {
    let Lent { cells, book, message, receipt } = lent;
    match call {
        Call::Encode => done(taldrimsu::encode(z, cells)),
        Call::Begin { number } => done(taldrimsu::begin(z, cells, book, number)),
        Call::Compute { w } => step(taldrimsu::compute(z, cells, book, w)),
        Call::Send { w, e } => done(taldrimsu::send(z, cells, book, w, e, message)),
        Call::Deliver { node } => step(taldrimsu::deliver(z, cells, book, node, message, receipt)),
        Call::Receipt { node } => step(taldrimsu::receipt(z, book, node, receipt)),
        Call::Release { w } => step(taldrimsu::release(z, cells, book, w)),
        Call::Close => done(taldrimsu::close(z, cells, book)),
        Call::Status => status(taldrimsu::status(z, book)),
        Call::Read { g, d } => read(z, cells, book, g, d),
        Call::Drive { limit } => drive(taldrimsu::drive(z, cells, book, limit, message)),
    }
}

fn number(answer: Result<u64, Refusal>) -> u64 {
    answer.unwrap_or_else(|refusal| u64::from(refusal.number()))
}

fn done(answer: Result<(), Refusal>) -> u64 {
    number(answer.map(|()| 0))
}

pub fn done_with(answer: Result<usize, Refusal>) -> u64 {
    number(answer.map(|value| 256 * value as u64))
}

fn step(answer: Result<Step, Refusal>) -> u64 {
    number(answer.map(|step| match step {
        Step::Done => 0,
        Step::Already => 32,
    }))
}

fn drive(answer: Result<Drive, Refusal>) -> u64 {
    number(answer.map(|drive| match drive {
        Drive::Spent(accepted) => 33 + 256 * accepted as u64,
        Drive::Finished(accepted) => 34 + 256 * accepted as u64,
    }))
}

fn status(answer: Result<Status, Refusal>) -> u64 {
    number(answer.map(|Status { state, accepted }| match state {
        State::Open => 41 + 256 * accepted as u64,
        State::Closed => 42 + 256 * accepted as u64,
    }))
}

/// Both ways to find a block: the part that read hands back must stand where locate says.
fn read(z: Shape, cells: &[u8], book: &[u32], g: usize, d: usize) -> u64 {
    let located = taldrimsu::locate(z, cells, book, g, d);
    let block = taldrimsu::read(z, cells, book, g, d);
    match (located, block) {
        (Ok(start), Ok(block)) => assert!(std::ptr::eq(block, &cells[start..start + z.b]), "read of {z:?} {g} {d}"),
        (located, block) => assert_eq!(located.err(), block.err(), "read of {z:?} {g} {d}"),
    }
    done_with(located)
}
