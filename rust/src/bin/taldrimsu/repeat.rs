//! One message that comes once more when the growth is all but closed, and what the library does with it.

use crate::failure::{ensure, refused, Failure};
use crate::link::header;
use crate::store::Store;
use crate::stripe::lift;
use crate::trace::{samples, SAMPLE};
use taldrimsu::{deliver, Shape, Step};

/// Samples that are shown of a block.
pub const SHOWN: usize = 8;
/// Bytes of a message before its block.
const HEADER: usize = 16;
/// A force, in newtons, that tells a reader that the brake is pressed.
const PRESSED: u16 = 500;

/// A change of parity row 1 that came once more, and the stripe as it was then.
pub struct Repeat {
    pub w: usize,
    pub receiver: usize,
    pub change: Vec<u8>,
    /// Columns, then rows.
    pub stripe: Vec<u8>,
}

/// Whether a message is one to show: it changes parity row 1 of a stripe whose first column starts with samples of a pressed brake.
pub fn is_telling(store: &Store, message: &[u8]) -> bool {
    let header = header(message);
    let start = header.stripe * store.z.k * store.z.b;
    let shown = start..start + SHOWN * SAMPLE;
    let changes = message[HEADER..HEADER + shown.len()].iter().any(|byte| *byte != 0);
    let in_trace = shown.end <= store.trace_at(start).bytes.end;
    let pressed = samples(&store.stored[shown]).iter().all(|force| *force >= PRESSED);
    header.kind == 1 && header.transfer == 0 && changes && in_trace && pressed
}

/// Delivers the message once more: the library must answer *already* and change nothing.
pub fn repeat(store: &mut Store, message: Vec<u8>) -> Result<Repeat, Failure> {
    let header = header(&message);
    let before = (store.cells.clone(), store.journal.clone());
    let mut receipt = [0; Shape::RECEIPT_LEN];
    let answer =
        deliver(store.z, &mut store.cells, &mut store.journal, header.receiver, &message, &mut receipt).map_err(refused("a repeat"))?;
    ensure(answer == Step::Already, || format!("the repeat of a change of stripe {} was taken for a new one", header.stripe))?;
    ensure(before.0 == store.cells && before.1 == store.journal, || format!("a repeat at node {} changed the store", header.receiver))?;
    let stripe = lift(store.z, &store.cells, header.stripe);
    Ok(Repeat { w: header.stripe, receiver: header.receiver, change: message[HEADER..].to_vec(), stripe })
}

#[cfg(test)]
mod tests {
    use super::*;
    use crate::testing::{begun, change_of};
    use taldrimsu::drive;

    #[test]
    fn a_repeat_that_is_taken_for_a_new_one_is_found() {
        let mut store = begun(4, 2, 1);
        let message = change_of(&mut store, 15);
        assert!(is_telling(&store, &message));
        let failure = repeat(&mut store, message.clone()).err().unwrap();
        assert_eq!(failure.line, "the repeat of a change of stripe 15 was taken for a new one");
        assert_eq!(repeat(&mut store, message).unwrap().w, 15);
    }

    #[test]
    fn other_messages_are_not_shown() {
        let mut store = begun(4, 2, 1);
        let mut space = vec![0; store.z.drive_space_len()];
        drive(store.z, &mut store.cells, &mut store.journal, 2, &mut space).unwrap();
        let length = store.z.message_len();
        assert_eq!(header(&space).kind, 2);
        assert!(!is_telling(&store, &space[..length]));
    }
}
