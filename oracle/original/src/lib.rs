//! The original: regolith's pool.rs and sah.rs as they are, over a memory device.
//!
//! `build.rs` brings the text of a regolith checkout; here it gets the modules that it expects around it: stand-ins
//! for what is not in the text, and `js` as a memory device to 01's rules. Without a checkout the crate has the
//! same face, and says that there is no original.

#[cfg(regolith)]
mod device;
#[cfg(regolith)]
mod engine;
#[cfg(regolith)]
mod env;
#[cfg(regolith)]
mod portability;

#[cfg(regolith)]
pub use env::opfs::driver::{Original, decode_header, encode_header};

#[cfg(not(regolith))]
mod absent;
#[cfg(not(regolith))]
pub use absent::{Original, decode_header, encode_header};

/// Whether the original was built in.
pub const PRESENT: bool = cfg!(regolith);

/// What a header block says, with the original's types left behind.
#[derive(Clone, Debug, PartialEq, Eq)]
pub struct Decoded {
    /// Whether the slot is in use.
    pub in_use: bool,
    /// The path.
    pub path: String,
    /// The file's length.
    pub len: u64,
    /// The generation.
    pub generation: u64,
}
