//! Links the proved static library if the repository has built it: `target/staticlib/libharness.a` under the
//! repository's root, where `./staticlib` puts it, or the archive that `HARNESS` names. Without one for the processor at
//! hand the comparing programs talk to the Rattle program `serve` through pipes instead.

use std::env;
use std::path::PathBuf;

fn main() {
    println!("cargo::rustc-check-cfg=cfg(library)");
    println!("cargo::rustc-check-cfg=cfg(records)");
    println!("cargo::rerun-if-env-changed=HARNESS");
    if env::var_os("CARGO_FEATURE_SELFCHECK").is_some() {
        println!("cargo::rustc-cfg=library");
        return;
    }
    let archive = archive();
    println!("cargo::rerun-if-changed={}", archive.display());
    let not_linked = |why: &str| {
        let name = archive.display();
        println!("cargo::warning={name} {why}: the library is not linked, but asked through pipes");
    };
    let Ok(bytes) = std::fs::read(&archive) else {
        return not_linked("is not there");
    };
    if !fits_here(&bytes) {
        return not_linked("is for another processor");
    }
    if !exports(&bytes, b"pool_script") {
        return not_linked("has no pool_script");
    }
    let folder = archive.parent().expect("a file lies in a folder");
    println!("cargo::rustc-link-search=native={}", folder.display());
    println!("cargo::rustc-link-lib=static=harness");
    println!("cargo::rustc-cfg=library");
    if exports(&bytes, b"record_check") && exports(&bytes, b"record_lookups") {
        println!("cargo::rustc-cfg=records");
    }
}

/// Whether the archive's first object is for the processor that is compiled for: the machine's number stands at byte
/// 18 of an ELF object.
fn fits_here(archive: &[u8]) -> bool {
    let Some(start) = archive.windows(4).position(|part| part == b"\x7fELF") else {
        return false;
    };
    let machine = archive.get(start + 18..start + 20);
    match env::var("CARGO_CFG_TARGET_ARCH").as_deref() {
        Ok("x86_64") => machine == Some(&[62, 0]),
        Ok("aarch64") => machine == Some(&[183, 0]),
        _ => false,
    }
}

/// Whether the archive has the name of a symbol.
fn exports(archive: &[u8], name: &[u8]) -> bool {
    archive.windows(name.len()).any(|part| part == name)
}

fn archive() -> PathBuf {
    if let Some(archive) = env::var_os("HARNESS") {
        return PathBuf::from(archive);
    }
    let own = PathBuf::from(env::var_os("CARGO_MANIFEST_DIR").expect("cargo sets it"));
    let repository = own.ancestors().nth(2).expect("oracle/compare lies in it");
    repository.join("target/staticlib/libharness.a")
}
