//! The access control of document 01, with repeats told from gaps (L1) and shared keys (L4) of document 02: an
//! independent second program, written from the documents and not from the proved crates or their definitions. It has
//! no dependencies and no proofs.
//!
//! A tag is a slice of bytes lent by the caller, a session is kept beside it, and each command answers `Ok` or the
//! lowest refusal that applies. A refused command changes nothing, except that a wrong response sets the usage flag.

#![forbid(unsafe_code)]

mod hosts;
mod log;
mod map;
mod refusal;
mod register;
mod session;
mod tag;
mod unit;
pub mod xxtea;

pub use log::{run, Run, Stop};
pub use refusal::{Answer, Refusal};
pub use session::Session;
pub use tag::{advance, insert, read, write};
