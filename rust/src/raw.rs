//! The twelve functions of the proved library as C sees them, and for each a wrapper on slices. All unsafe code of the crate is here.
//!
//! The library asks that a pointer is not null and valid for the length that follows it, and that what it writes overlaps nothing
//! else that it is lent. It keeps no pointer. An empty slice has a pointer that is not null, so it is lent like any other.

use crate::Shape;

extern "C" {
    fn taldrimsu_encode(n: usize, k: usize, s: usize, b: usize, cells: *mut u8, cells_len: usize) -> u64;
    fn taldrimsu_begin(
        n: usize, k: usize, s: usize, b: usize, cells: *mut u8, cells_len: usize, book: *mut u32, book_len: usize, number: usize,
    ) -> u64;
    fn taldrimsu_compute(
        n: usize, k: usize, s: usize, b: usize, cells: *mut u8, cells_len: usize, book: *mut u32, book_len: usize, w: usize,
    ) -> u64;
    fn taldrimsu_send(
        n: usize, k: usize, s: usize, b: usize, cells: *const u8, cells_len: usize, book: *const u32, book_len: usize, w: usize, e: usize,
        message: *mut u8, message_len: usize,
    ) -> u64;
    fn taldrimsu_deliver(
        n: usize, k: usize, s: usize, b: usize, cells: *mut u8, cells_len: usize, book: *mut u32, book_len: usize, node: usize,
        message: *const u8, message_len: usize, receipt: *mut u8, receipt_len: usize,
    ) -> u64;
    fn taldrimsu_receipt(
        n: usize, k: usize, s: usize, b: usize, book: *mut u32, book_len: usize, node: usize, receipt: *const u8, receipt_len: usize,
    ) -> u64;
    fn taldrimsu_release(
        n: usize, k: usize, s: usize, b: usize, cells: *mut u8, cells_len: usize, book: *mut u32, book_len: usize, w: usize,
    ) -> u64;
    fn taldrimsu_close(n: usize, k: usize, s: usize, b: usize, cells: *mut u8, cells_len: usize, book: *mut u32, book_len: usize) -> u64;
    fn taldrimsu_status(n: usize, k: usize, s: usize, b: usize, book: *const u32, book_len: usize) -> u64;
    fn taldrimsu_read(
        n: usize, k: usize, s: usize, b: usize, cells: *const u8, cells_len: usize, book: *const u32, book_len: usize, g: usize, d: usize,
    ) -> u64;
    fn taldrimsu_drive(
        n: usize, k: usize, s: usize, b: usize, cells: *mut u8, cells_len: usize, book: *mut u32, book_len: usize, limit: usize,
        space: *mut u8, space_len: usize,
    ) -> u64;
    fn taldrimsu_rebuild(n: usize, k: usize, b: usize, stripe: *mut u8, stripe_len: usize, losses: *const u8, losses_len: usize) -> u64;
}

pub fn encode(z: Shape, cells: &mut [u8]) -> u64 {
    // SAFETY: every slice is valid for its length, and those that are written are lent to nobody else.
    unsafe { taldrimsu_encode(z.n, z.k, z.s, z.b, cells.as_mut_ptr(), cells.len()) }
}

pub fn begin(z: Shape, cells: &mut [u8], book: &mut [u32], number: usize) -> u64 {
    // SAFETY: every slice is valid for its length, and those that are written are lent to nobody else.
    unsafe { taldrimsu_begin(z.n, z.k, z.s, z.b, cells.as_mut_ptr(), cells.len(), book.as_mut_ptr(), book.len(), number) }
}

pub fn compute(z: Shape, cells: &mut [u8], book: &mut [u32], w: usize) -> u64 {
    // SAFETY: every slice is valid for its length, and those that are written are lent to nobody else.
    unsafe { taldrimsu_compute(z.n, z.k, z.s, z.b, cells.as_mut_ptr(), cells.len(), book.as_mut_ptr(), book.len(), w) }
}

pub fn send(z: Shape, cells: &[u8], book: &[u32], w: usize, e: usize, message: &mut [u8]) -> u64 {
    // SAFETY: every slice is valid for its length, and those that are written are lent to nobody else.
    unsafe {
        taldrimsu_send(
            z.n,
            z.k,
            z.s,
            z.b,
            cells.as_ptr(),
            cells.len(),
            book.as_ptr(),
            book.len(),
            w,
            e,
            message.as_mut_ptr(),
            message.len(),
        )
    }
}

pub fn deliver(z: Shape, cells: &mut [u8], book: &mut [u32], node: usize, message: &[u8], receipt: &mut [u8]) -> u64 {
    // SAFETY: every slice is valid for its length, and those that are written are lent to nobody else.
    unsafe {
        taldrimsu_deliver(
            z.n,
            z.k,
            z.s,
            z.b,
            cells.as_mut_ptr(),
            cells.len(),
            book.as_mut_ptr(),
            book.len(),
            node,
            message.as_ptr(),
            message.len(),
            receipt.as_mut_ptr(),
            receipt.len(),
        )
    }
}

pub fn receipt(z: Shape, book: &mut [u32], node: usize, receipt: &[u8]) -> u64 {
    // SAFETY: every slice is valid for its length, and those that are written are lent to nobody else.
    unsafe { taldrimsu_receipt(z.n, z.k, z.s, z.b, book.as_mut_ptr(), book.len(), node, receipt.as_ptr(), receipt.len()) }
}

pub fn release(z: Shape, cells: &mut [u8], book: &mut [u32], w: usize) -> u64 {
    // SAFETY: every slice is valid for its length, and those that are written are lent to nobody else.
    unsafe { taldrimsu_release(z.n, z.k, z.s, z.b, cells.as_mut_ptr(), cells.len(), book.as_mut_ptr(), book.len(), w) }
}

pub fn close(z: Shape, cells: &mut [u8], book: &mut [u32]) -> u64 {
    // SAFETY: every slice is valid for its length, and those that are written are lent to nobody else.
    unsafe { taldrimsu_close(z.n, z.k, z.s, z.b, cells.as_mut_ptr(), cells.len(), book.as_mut_ptr(), book.len()) }
}

pub fn status(z: Shape, book: &[u32]) -> u64 {
    // SAFETY: every slice is valid for its length, and those that are written are lent to nobody else.
    unsafe { taldrimsu_status(z.n, z.k, z.s, z.b, book.as_ptr(), book.len()) }
}

pub fn read(z: Shape, cells: &[u8], book: &[u32], g: usize, d: usize) -> u64 {
    // SAFETY: every slice is valid for its length, and those that are written are lent to nobody else.
    unsafe { taldrimsu_read(z.n, z.k, z.s, z.b, cells.as_ptr(), cells.len(), book.as_ptr(), book.len(), g, d) }
}

pub fn drive(z: Shape, cells: &mut [u8], book: &mut [u32], limit: usize, space: &mut [u8]) -> u64 {
    // SAFETY: every slice is valid for its length, and those that are written are lent to nobody else.
    unsafe {
        taldrimsu_drive(
            z.n,
            z.k,
            z.s,
            z.b,
            cells.as_mut_ptr(),
            cells.len(),
            book.as_mut_ptr(),
            book.len(),
            limit,
            space.as_mut_ptr(),
            space.len(),
        )
    }
}

pub fn rebuild(n: usize, k: usize, b: usize, stripe: &mut [u8], losses: &[u8]) -> u64 {
    // SAFETY: every slice is valid for its length, and those that are written are lent to nobody else.
    unsafe { taldrimsu_rebuild(n, k, b, stripe.as_mut_ptr(), stripe.len(), losses.as_ptr(), losses.len()) }
}
