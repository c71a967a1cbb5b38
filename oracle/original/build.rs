//! Fetches the original's text from a regolith checkout, unchanged, and lays it out for `src/lib.rs`.
//!
//! `REGOLITH` names the checkout's root; by default it is `../shared/docs/src` beside the repository. The files
//! are pinned by SHA-256: others are refused. If there is no checkout, the crate is built without the original.
//! Nothing of the text is kept outside of cargo's output folder.

use std::path::{Path, PathBuf};
use std::{env, fs};

#[path = "sha256.rs"]
mod sha256;

/// The files used, and the SHA-256 of each.
const PINNED: [(&str, &str); 4] = [
    (
        "src/env/opfs/pool.rs",
        "470a9564533035bc0264184797a02cee32de3a1a5caba3bcf2e50d8d08afe831",
    ),
    (
        "src/env/opfs/sah.rs",
        "061422ea0ef9b4637df5c1f40b9e5f2b22716c3b7d4bc022464cb309bcdd2779",
    ),
    (
        "src/env/opfs/mod.rs",
        "6f7c8c3427c9547551feabbe6a703c010288b1e8d018bb04a5264261836a10e2",
    ),
    (
        "src/env/mod.rs",
        "41a5e3e47afbb4b573b1a3e6d9662543900c0206da8cf9d2e6e5ce8d7f0fb929",
    ),
];

/// What is appended to pool.rs and sah.rs to read their private parts.
const APPENDED_TO_POOL: &str = "src/appended_to_pool.rs";
const APPENDED_TO_SAH: &str = "src/appended_to_sah.rs";

fn main() {
    println!("cargo::rerun-if-env-changed=REGOLITH");
    for own in ["build.rs", "sha256.rs", APPENDED_TO_POOL, APPENDED_TO_SAH] {
        println!("cargo::rerun-if-changed={own}");
    }
    let root = checkout();
    for (file, _) in PINNED {
        println!("cargo::rerun-if-changed={}", root.join(file).display());
    }
    if !root.join(PINNED[0].0).exists() {
        println!(
            "cargo::warning=no regolith checkout at {} (set REGOLITH): every comparison with the original is skipped",
            root.display()
        );
        return;
    }
    let texts: Option<Vec<String>> = PINNED
        .iter()
        .map(|(file, pin)| pinned(&root.join(file), pin))
        .collect();
    if let Some(texts) = texts {
        lay_out(&texts);
        println!("cargo::rustc-cfg=regolith");
    }
}

/// The checkout's root.
fn checkout() -> PathBuf {
    if let Some(root) = env::var_os("REGOLITH") {
        return PathBuf::from(root);
    }
    let own = PathBuf::from(env::var_os("CARGO_MANIFEST_DIR").expect("cargo sets it"));
    let repository = own.ancestors().nth(2).expect("oracle/original lies in it");
    let beside = repository.parent().unwrap_or(repository);
    beside.join("shared/docs/src")
}

/// The file's text, if it is the pinned one; else the build fails and says why.
fn pinned(file: &Path, pin: &str) -> Option<String> {
    let bytes = match fs::read(file) {
        Ok(bytes) => bytes,
        Err(why) => {
            println!("cargo::error=cannot read {}: {why}", file.display());
            return None;
        }
    };
    let found = sha256::hex(&bytes);
    if found != pin {
        println!(
            "cargo::error={} is not the pinned text: its SHA-256 is {found}, and {pin} is wanted (regolith 2a399287c0)",
            file.display()
        );
        return None;
    }
    Some(String::from_utf8(bytes).expect("the pinned text is UTF-8"))
}

/// Writes pool.rs and sah.rs with what is appended, and the functions cut from the two mod.rs files.
fn lay_out(texts: &[String]) {
    let out = PathBuf::from(env::var_os("OUT_DIR").expect("cargo sets it"));
    let append = |text: &str, file: &str| {
        let more = fs::read_to_string(file).expect("a file of this crate");
        format!("{text}\n{more}")
    };
    let put = |name: &str, text: String| {
        let file = out.join(name);
        fs::write(&file, text).expect("cargo's output folder can be written");
        file
    };
    let pool = put("pool.rs", append(&texts[0], APPENDED_TO_POOL));
    let sah = put("sah.rs", append(&texts[1], APPENDED_TO_SAH));
    put(
        "opfs.rs",
        format!(
            "#[path = {pool:?}]\n#[allow(dead_code, clippy::arc_with_non_send_sync)]\nmod pool;\n\
             #[path = {sah:?}]\n#[allow(dead_code)]\nmod sah;\n{}{}",
            cut(&texts[2], "pub(super) fn register_ancestors(", "\n}\n"),
            cut(&texts[2], "pub(super) fn not_found(", "\n}\n"),
        ),
    );
    put(
        "env.rs",
        format!(
            "{}{}",
            cut(&texts[3], "pub type ReadDir<'a>", ";\n"),
            cut(&texts[3], "pub(crate) fn flat_children<'a>(", "\n}\n"),
        ),
    );
}

/// The item that starts with `from` and ends with `to`, as it stands in the text.
fn cut<'a>(text: &'a str, from: &str, to: &str) -> &'a str {
    let start = text.find(from).expect("the pinned text has it");
    let length = text[start..].find(to).expect("the pinned text has its end");
    &text[start..start + length + to.len()]
}
