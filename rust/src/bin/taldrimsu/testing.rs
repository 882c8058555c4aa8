//! Stores for the tests of the checks, made without a bad link.

use crate::chance::Chance;
use crate::store::Store;
use taldrimsu::{begin, close, compute, drive, send, Shape};

/// A store whose growth has begun.
pub fn begun(n: usize, k: usize, s: usize) -> Store {
    let z = Shape::new(n, k, s, 64).unwrap();
    let mut store = Store::with_traces(z, &mut Chance::new(1)).unwrap();
    begin(z, &mut store.cells, &mut store.journal, 1).unwrap();
    store
}

/// A store that has grown.
pub fn grown(n: usize, k: usize, s: usize) -> Store {
    let mut store = begun(n, k, s);
    let z = store.z;
    drive(z, &mut store.cells, &mut store.journal, z.all_transfers(), &mut vec![0; z.drive_space_len()]).unwrap();
    close(z, &mut store.cells, &mut store.journal).unwrap();
    store
}

/// The message with the change of parity row 1 of a stripe.
pub fn change_of(store: &mut Store, w: usize) -> Vec<u8> {
    let mut message = vec![0; store.z.message_len()];
    compute(store.z, &mut store.cells, &mut store.journal, w).unwrap();
    send(store.z, &store.cells, &store.journal, w, 0, &mut message).unwrap();
    message
}
