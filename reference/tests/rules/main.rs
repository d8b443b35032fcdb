//! The rules of document 01 and of L1 and L4 in document 02, tried from outside the crate.

mod commands;
mod host;
mod log;
mod random;
mod registers;
mod repeats;
mod shared_keys;
mod soundness;
mod units;
