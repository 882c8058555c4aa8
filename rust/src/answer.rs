//! What calls answer, and the one place where the C functions' numbers are read.
//!
//! A number is a code and 256 times a value. A number that the library has no meaning for is an error in the library, not in its caller.

use crate::Refusal;

const DONE: u64 = 0;
const ALREADY: u64 = 32;
const SPENT: u64 = 33;
const FINISHED: u64 = 34;
const OPEN: u64 = 41;
const CLOSED: u64 = 42;

/// What a step of a growth did.
#[derive(Clone, Copy, Debug, PartialEq, Eq)]
pub enum Step {
    /// The step was done.
    Done,
    /// It had been done before. Nothing is changed; a repeated deliver writes its receipt again.
    Already,
}

/// Whether a growth is still under way.
#[derive(Clone, Copy, Debug, PartialEq, Eq)]
pub enum State {
    /// The growth is under way.
    Open,
    /// Close has succeeded.
    Closed,
}

/// What the journal says of a growth.
#[derive(Clone, Copy, Debug, PartialEq, Eq)]
pub struct Status {
    /// Whether the growth is open or closed.
    pub state: State,
    /// The number of transfers that were accepted so far, of [`Shape::all_transfers`](crate::Shape::all_transfers).
    pub accepted: usize,
}

/// How a drive ended, each with the number of transfers that it newly accepted.
#[derive(Clone, Copy, Debug, PartialEq, Eq)]
pub enum Drive {
    /// The limit was reached and there is a further transfer to accept.
    Spent(usize),
    /// Every stripe is released; the growth can be closed.
    Finished(usize),
}

/// The code and the value of a number, or the refusal that it is.
fn split(number: u64) -> Result<(u64, usize), Refusal> {
    let code = number % 256;
    match Refusal::from_number(code as u8) {
        Some(refusal) if number == code => Err(refusal),
        _ => Ok((code, (number / 256) as usize)),
    }
}

fn unknown(code: u64, value: usize) -> ! {
    unreachable!("the library answered with code {code} and value {value}, which this call cannot give")
}

pub(crate) fn done(number: u64) -> Result<(), Refusal> {
    match split(number)? {
        (DONE, 0) => Ok(()),
        (code, value) => unknown(code, value),
    }
}

pub(crate) fn done_with(number: u64) -> Result<usize, Refusal> {
    match split(number)? {
        (DONE, value) => Ok(value),
        (code, value) => unknown(code, value),
    }
}

pub(crate) fn step(number: u64) -> Result<Step, Refusal> {
    match split(number)? {
        (DONE, 0) => Ok(Step::Done),
        (ALREADY, 0) => Ok(Step::Already),
        (code, value) => unknown(code, value),
    }
}

pub(crate) fn drive(number: u64) -> Result<Drive, Refusal> {
    match split(number)? {
        (SPENT, accepted) => Ok(Drive::Spent(accepted)),
        (FINISHED, accepted) => Ok(Drive::Finished(accepted)),
        (code, value) => unknown(code, value),
    }
}

pub(crate) fn status(number: u64) -> Result<Status, Refusal> {
    let state = |state, accepted| Ok(Status { state, accepted });
    match split(number)? {
        (OPEN, accepted) => state(State::Open, accepted),
        (CLOSED, accepted) => state(State::Closed, accepted),
        (code, value) => unknown(code, value),
    }
}

#[cfg(test)]
mod tests {
    use super::*;

    fn panics<T>(read: fn(u64) -> Result<T, Refusal>, number: u64) -> bool {
        std::panic::catch_unwind(|| read(number).is_ok()).is_err()
    }

    #[test]
    fn every_refusal_is_read_by_every_reader() {
        for number in 1..=13 {
            let refusal = Refusal::from_number(number as u8).unwrap();
            assert_eq!(done(number), Err(refusal));
            assert_eq!(done_with(number), Err(refusal));
            assert_eq!(step(number), Err(refusal));
            assert_eq!(drive(number), Err(refusal));
            assert_eq!(status(number), Err(refusal));
        }
    }

    #[test]
    fn values_are_the_number_above_the_code() {
        assert_eq!(done_with(256 * 7), Ok(7));
        assert_eq!(drive(33 + 256 * 80), Ok(Drive::Spent(80)));
        assert_eq!(drive(34 + 256 * 81), Ok(Drive::Finished(81)));
        assert_eq!(status(41 + 256 * 5), Ok(Status { state: State::Open, accepted: 5 }));
        assert_eq!(status(42 + 256 * 6), Ok(Status { state: State::Closed, accepted: 6 }));
    }

    /// A refusal with a value, a value where there is none, another call's code, and a code that nothing has.
    #[test]
    fn numbers_without_a_meaning_are_not_passed_on() {
        for number in [3 + 256, 256, 32, 33, 14, 255] {
            assert!(panics(done, number), "{number}");
        }
        for number in [3 + 256, 32 + 256, 41] {
            assert!(panics(step, number), "{number}");
        }
        assert!(panics(done_with, 32));
        assert!(panics(drive, 0));
        assert!(panics(status, 40));
    }
}
