//! The modules around the original's text, by the names it knows them under.

use std::io;
use std::path::Path;

include!(concat!(env!("OUT_DIR"), "/env.rs"));

/// An entry of a listing. (The original's is in a file that isn't at hand; these are the fields it is made with.)
pub struct DirEntry {
    /// The whole path.
    pub path: std::path::PathBuf,
    /// Whether it is a directory.
    pub is_dir: bool,
}

pub(crate) mod opfs {
    //! The pool, the slot calls, and the driver beside them, which may call what is private to this module.

    use std::io;
    use std::path::{Path, PathBuf};

    use kovan_map::HashMap;

    pub(crate) mod driver;
    mod js;

    include!(concat!(env!("OUT_DIR"), "/opfs.rs"));
}
