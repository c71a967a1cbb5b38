//! A plain model of document 01, written from the document and not from the Rust that is ported.
//!
//! It is what a reader of 01 would write down: lists of rows, a queue, a list of directories, a counter and a
//! device, and for every call the refusals in 01's order. It is slow and simple on purpose. The original is
//! compared with it on 01's domain; the proved library everywhere.

pub mod check;
pub mod device;
pub mod header;
pub mod path;
mod pool;
mod run;
mod slots;
pub mod text;

pub use run::{Model, ModelRunner, output};
