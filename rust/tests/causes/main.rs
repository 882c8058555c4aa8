//! Each cause of refusals 4 and 9 that document 01 names, alone, on a small store under way. The expected answer is written down from the
//! document. A refused call must also leave every lent byte as it was.

mod cause;
#[allow(dead_code)]
#[path = "../common/mod.rs"]
mod common;
mod header;
mod packets;
mod sound;
mod touched;
mod whole;
