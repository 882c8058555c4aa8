//! What the tests share.

pub mod calls;
pub mod messages;
pub mod random;
