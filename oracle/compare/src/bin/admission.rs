//! Times the test that every public call begins with, "is the record a pool", on full rows, and prints it as ratios:
//! against one plain pass over the same bytes, and against the test by all pairs of paths, both in Rust, in one
//! process. Without a library that exports `record_check` it says so and ends with 1.
//!
//! `admission [--turns N]`

use std::hint::black_box;

use compare::arguments::Arguments;
use compare::rows::{self, Rows, median};

/// A path of 64 components and 383 bytes, and its 63 ancestors with it: 64 directories.
fn deep(component: impl Fn(usize) -> String) -> Vec<String> {
    let components: Vec<String> = (0..64).map(component).collect();
    (1..=64).map(|n| components[..n].join("/")).collect()
}

fn main() {
    let arguments = Arguments::read(&["turns"], &[]);
    if !rows::PRESENT {
        println!("skipped: the library has no record_check");
        std::process::exit(1);
    }
    let turns = arguments.number("turns", 101) as usize;
    let dirs = deep(|i| format!("d{i:04}"));
    let apart: Vec<String> = (0..64)
        .map(|i| format!("{}/tile-{i:011}", dirs[63]))
        .collect();
    let alike: Vec<String> = (0..64)
        .map(|i| format!("{}/{i:04}/tile.cleaned", &dirs[62]))
        .collect();
    let short: Vec<String> = (0..64).map(|i| format!("deck/07/tile-{i:07}")).collect();
    let shallow = vec!["deck".to_owned(), "deck/07".to_owned()];
    println!(
        "{:<58} {:>9} {:>9} {:>11} {:>9} {:>9}",
        "rows", "test us", "pass us", "all pairs us", "x pass", "x faster"
    );
    for (what, rows) in [
        (
            "64 files of 400 bytes, 64 directories, 64 rows",
            Rows::new(&apart, &dirs, 64),
        ),
        (
            "64 files of 400 bytes, 64 directories, 256 rows",
            Rows::new(&apart, &dirs, 256),
        ),
        (
            "64 files of 20 bytes, 2 directories, 16 rows",
            Rows::new(&short, &shallow, 16),
        ),
        (
            "64 files of one last name, 63 directories, 64 rows",
            Rows::new(&alike, &dirs[..63], 64),
        ),
    ] {
        assert!(rows.library(), "{what}: the library says no pool");
        assert!(rows.all_pairs(), "{what}: no pool by all pairs");
        let test = median(turns, || assert!(black_box(&rows).library()));
        let pass = median(turns, || _ = black_box(black_box(&rows).pass()));
        let pairs = median(turns.min(21), || assert!(black_box(&rows).all_pairs()));
        println!(
            "{what:<58} {test:>9.2} {pass:>9.2} {pairs:>11.1} {:>9.2} {:>9.1}",
            test / pass,
            pairs / test
        );
    }
}
