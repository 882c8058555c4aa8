//! Small erasure-coded stores that grow by s nodes while their messages are lost, repeated and shuffled.
//!
//! This crate is a thin layer over a proved library: the calls of the growth as safe functions on slices. It allocates nothing; the caller
//! provides the cells of the store, the journal, and space for messages and receipts, and [`Shape`] computes how long each must be. The
//! calls' parameter `book` is what the texts call the journal.
//!
//! Cells and journal are one group of n(n+s)(k+s)k data blocks; a large store is many groups, each with its own growth number. Make
//! one call at a time on a group. A grown group cannot grow again as it is: its layout is not the first layout of another
//! shape. [`begin`] refuses it with 12 if parity shows it; with one parity row it does not.
//!
//! A growth by hand is: [`begin`]; for each kept stripe [`compute`]; for each of its transfers [`send`] at the sender, [`deliver`]
//! at the receiver and [`receipt`] at the sender, as often as the link needs; [`release`]; and [`close`] at the end. [`drive`]
//! takes all these steps but the first and the last by itself. [`read`] finds every old block from [`begin`] on, during the growth
//! and after it, and [`rebuild`] repairs a stripe; read there what holds in the middle of a growth.
//!
//! The library takes AVX2 if the processor has it; with `TALDRIMSU_LEVEL=plain` in the environment of the program it does not.
//!
//! # The whole life of a store
//!
//! ```
//! use taldrimsu::{begin, close, drive, encode, read, rebuild, Drive, Refusal, Shape};
//!
//! fn main() -> Result<(), Refusal> {
//!     // Four nodes, two of the four blocks of a stripe are data; one node is to join. Blocks of 8 bytes.
//!     let z = Shape::new(4, 2, 1, 8)?;
//!     let mut cells: Vec<u8> = (0..z.cells_len()).map(|i| (i % 251) as u8).collect();
//!     let mut book = vec![0; z.book_len()];
//!     let mut space = vec![0; z.drive_space_len()];
//!
//!     // Data go to their places, then parity is written.
//!     let (node, slot) = z.data_place(41, 1);
//!     let start = z.cell_offset(node, slot);
//!     cells[start..start + 8].copy_from_slice(b"a trace!");
//!     encode(z, &mut cells)?;
//!
//!     // The store grows.
//!     begin(z, &mut cells, &mut book, 1)?;
//!     assert_eq!(drive(z, &mut cells, &mut book, 10, &mut space)?, Drive::Spent(10));
//!     assert_eq!(drive(z, &mut cells, &mut book, 1000, &mut space)?, Drive::Finished(z.all_transfers() - 10));
//!     close(z, &mut cells, &mut book)?;
//!     assert_eq!(read(z, &cells, &book, 41, 1)?, b"a trace!");
//!
//!     // A stripe of the grown store, columns then rows, is lifted out; two of its five blocks are lost.
//!     let columns = (0..z.k + z.s).map(|c| z.new_data_place(7, c));
//!     let rows = (0..z.rows()).map(|j| z.new_parity_place(7, j));
//!     let stored: Vec<u8> = columns
//!         .chain(rows)
//!         .map(|(node, slot)| z.cell_offset(node, slot))
//!         .flat_map(|start| cells[start..start + 8].to_vec())
//!         .collect();
//!     let mut stripe = stored.clone();
//!     stripe[0..8].fill(0xFF);
//!     stripe[16..24].fill(0xFF);
//!     assert_eq!(rebuild(z.nodes(), z.k + z.s, z.b, &mut stripe, &[1, 0, 1, 0, 0])?, 2);
//!     assert_eq!(stripe, stored);
//!     Ok(())
//! }
//! ```

#![deny(missing_docs)]
#![deny(unsafe_code)]

mod answer;
mod calls;
mod places;
#[allow(unsafe_code)]
mod raw;
mod refusal;
mod shape;

pub use answer::{Drive, State, Status, Step};
pub use calls::{begin, close, compute, deliver, drive, encode, locate, read, rebuild, receipt, release, send, status};
pub use refusal::Refusal;
pub use shape::Shape;
