//! The examples of document 01, run on the library. E5 and E6 are about shapes alone and stand in `shape.rs`.

use taldrimsu::{begin, close, compute, deliver, drive, encode, locate, rebuild, send, Drive, Refusal, Shape, Step};

/// The stripe of these data with its rows: all its rows are lost and rebuilt.
fn encoded(n: usize, data: &[u8]) -> Vec<u8> {
    let k = data.len();
    let mut stripe = vec![0; n];
    stripe[..k].copy_from_slice(data);
    let losses: Vec<u8> = (0..n).map(|p| u8::from(p >= k)).collect();
    assert_eq!(rebuild(n, k, 1, &mut stripe, &losses), Ok(n - k));
    stripe
}

fn begun(z: Shape) -> (Vec<u8>, Vec<u32>) {
    let mut cells: Vec<u8> = (0..z.cells_len()).map(|i| (i % 253) as u8).collect();
    let mut book = vec![0; z.book_len()];
    encode(z, &mut cells).unwrap();
    begin(z, &mut cells, &mut book, 5).unwrap();
    (cells, book)
}

#[test]
fn e1_rows() {
    assert_eq!(encoded(4, &[0x05, 0x07]), [0x05, 0x07, 0x02, 0x0B]);
    assert_eq!(encoded(5, &[0x05, 0x07, 0x80]), [0x05, 0x07, 0x80, 0x82, 0x31]);
}

/// Stripe 0 of (4,2,1) has the data 05 07 and gets the third block 80. Its rows are on nodes 0 and 1.
#[test]
fn e2_and_e3_changes() {
    let z = Shape::new(4, 2, 1, 1).unwrap();
    let (mut cells, mut book) = (vec![0; z.cells_len()], vec![0; z.book_len()]);
    let first_place = (z.kept()..z.stripes()).find(|&g| (0..z.k).any(|d| z.data_place(g, d).0 == 0)).unwrap();
    for ((node, slot), byte) in [(z.data_place(0, 0), 0x05), (z.data_place(0, 1), 0x07), ((0, first_place), 0x80)] {
        cells[z.cell_offset(node, slot)] = byte;
    }
    encode(z, &mut cells).unwrap();
    begin(z, &mut cells, &mut book, 5).unwrap();
    let rows = |cells: &[u8]| (cells[z.cell_offset(0, 0)], cells[z.cell_offset(1, 0)]);
    assert_eq!(rows(&cells), (0x02, 0x0B));
    compute(z, &mut cells, &mut book, 0).unwrap();
    let mut message = [0; 17];
    send(z, &cells, &book, 0, 0, &mut message).unwrap();
    assert_eq!((rows(&cells), message[16]), ((0x82, 0x0B), 0x3A));
    deliver(z, &mut cells, &mut book, 1, &message, &mut [0; 16]).unwrap();
    assert_eq!(rows(&cells), (0x82, 0x31));
    // A repeat adds nothing. It would if its mark were lost.
    assert_eq!(deliver(z, &mut cells, &mut book, 1, &message, &mut [0; 16]), Ok(Step::Already));
    assert_eq!(rows(&cells), (0x82, 0x31));
    book[4] = 10 << 28;
    assert_eq!(deliver(z, &mut cells, &mut book, 1, &message, &mut [0; 16]), Ok(Step::Done));
    assert_eq!(rows(&cells), (0x82, 0x0B));
}

/// A new block is found at its first place while its stripe is unreleased, and at the new one once it is released.
#[test]
fn e4_where_new_blocks_come_from() {
    let z = Shape::new(3, 2, 1, 1).unwrap();
    let (mut cells, mut book) = begun(z);
    let fresh = book.clone();
    assert_eq!(drive(z, &mut cells, &mut book, 1000, &mut [0; 33]), Ok(Drive::Finished(24)));
    for (w, node, slot) in [(0, 0, 25), (1, 1, 24), (23, 2, 34)] {
        let d = (0..z.k).find(|&d| z.data_place(slot, d) == (node, slot)).unwrap();
        assert_eq!(locate(z, &cells, &fresh, slot, d), Ok(z.cell_offset(node, slot)));
        let (new_node, new_slot) = z.new_data_place(w, z.k);
        assert_eq!(locate(z, &cells, &book, slot, d), Ok(z.cell_offset(new_node, new_slot)));
    }
}

#[test]
fn e7_and_e8_three_losses_that_cannot_be_undone() {
    let stripe = encoded(7, &[0x06, 0x07, 0x00, 0x01]);
    assert_eq!(stripe[4..], [0, 0, 0]);
    assert_eq!(rebuild(7, 4, 1, &mut stripe.clone(), &[1, 1, 0, 1, 0, 0, 0]), Err(Refusal::Ambiguous));
}

#[test]
fn one_loss_too_many_and_one_wrong_byte() {
    let stripe = encoded(4, &[0x05, 0x07]);
    assert_eq!(rebuild(4, 2, 1, &mut stripe.clone(), &[1, 1, 1, 0]), Err(Refusal::Ambiguous));
    let mut wrong = stripe.clone();
    wrong[3] ^= 1;
    assert_eq!(rebuild(4, 2, 1, &mut wrong, &[0, 0, 0, 0]), Err(Refusal::Inconsistent));
}

#[test]
fn a_drive_with_limit_0_computes_stripe_0_and_sends_nothing() {
    let z = Shape::new(4, 2, 1, 1).unwrap();
    let (mut cells, mut book) = begun(z);
    let mut space = [0xAA; 33];
    assert_eq!(drive(z, &mut cells, &mut book, 0, &mut space), Ok(Drive::Spent(0)));
    assert_eq!(space, [0xAA; 33]);
    assert_eq!(compute(z, &mut cells, &mut book, 0), Ok(Step::Already));
    assert_eq!(compute(z, &mut cells, &mut book, 1), Ok(Step::Done));
}

/// Every transfer is receipted and no stripe released: drive releases them all and has nothing to send.
#[test]
fn a_drive_over_an_all_receipted_journal_finishes() {
    let z = Shape::new(4, 2, 1, 1).unwrap();
    let (mut cells, mut book) = begun(z);
    drive(z, &mut cells, &mut book, 1000, &mut [0; 33]).unwrap();
    for w in 0..z.kept() {
        book[5 + 2 * w] &= !(1 << 27);
    }
    let mut space = [0xAA; 33];
    assert_eq!(drive(z, &mut cells, &mut book, 0, &mut space), Ok(Drive::Finished(0)));
    assert_eq!(space, [0xAA; 33]);
    assert_eq!(close(z, &mut cells, &mut book), Ok(()));
}
