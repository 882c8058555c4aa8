//! Why the program ends without success: one line for the user, and the exit status.

use std::io;
use taldrimsu::Refusal;

/// The program was called wrongly.
pub const USAGE: u8 = 2;
/// The program was called rightly, but a shape was refused, a check failed or the output could not be written.
const FAILED: u8 = 1;

#[derive(Debug)]
pub struct Failure {
    pub status: u8,
    /// Empty if nobody is there to read it.
    pub line: String,
}

impl Failure {
    pub fn usage(line: String) -> Failure {
        Failure { status: USAGE, line }
    }

    pub fn failed(line: String) -> Failure {
        Failure { status: FAILED, line }
    }
}

impl From<io::Error> for Failure {
    fn from(error: io::Error) -> Failure {
        // Whoever read the output has seen enough, as `head` does.
        if error.kind() == io::ErrorKind::BrokenPipe {
            return Failure::failed(String::new());
        }
        Failure::failed(format!("the output cannot be written: {error}"))
    }
}

/// Turns a refusal into a failure that says which call was refused.
pub fn refused(call: &str) -> impl Fn(Refusal) -> Failure + '_ {
    move |refusal| Failure::failed(format!("{call} is refused ({}): {refusal}", refusal.number()))
}

/// Fails with what `say` tells if the condition does not hold.
pub fn ensure(holds: bool, say: impl FnOnce() -> String) -> Result<(), Failure> {
    if holds {
        Ok(())
    } else {
        Err(Failure::failed(say()))
    }
}
