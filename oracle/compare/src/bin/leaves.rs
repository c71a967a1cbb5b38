//! Compares the library's leaf calls with their judges; ends with 1 at the first difference, and prints its input in
//! hexadecimal.
//!
//! `leaves [--quick] [--optional] [--seed N] [--piped] [--piped-seconds N]`. Where the library is piped and a time is given, the
//! comparisons are cut into parts, each with some of every kind, and as many parts are made as the time has room for, at least
//! one. Without the library it says so and ends with 1, or with 0 if `--optional` is given.

use std::time::{Duration, Instant};

use compare::arguments::Arguments;
use compare::leaves::{self, Counts};
use compare::library::Library;

/// Parts of which at least one is made.
const PARTS: u64 = 512;

fn main() {
    let names = ["seed", "piped-seconds"];
    let arguments = Arguments::read(&names, &["quick", "optional", "piped"]);
    let Some(mut library) = Library::find(arguments.flag("piped")) else {
        std::process::exit(i32::from(!arguments.flag("optional")));
    };
    if !original::PRESENT {
        println!("header calls are compared with the model only: no regolith checkout");
    }
    let (quick, seed) = (arguments.flag("quick"), arguments.number("seed", 1));
    let seconds = arguments.number("piped-seconds", 0);
    let began = Instant::now();
    let outcome = if library.is_piped() && seconds > 0 {
        parts(&mut library, quick, seed, Duration::from_secs(seconds))
    } else {
        leaves::compare(&mut library, quick, seed)
    };
    match outcome {
        Ok(counts) => {
            for (kind, count) in &counts {
                println!("{count:>12} {kind}");
            }
            println!(
                "leaf calls: {} comparisons, no difference; {:.1} seconds",
                counts.values().sum::<u64>(),
                began.elapsed().as_secs_f64()
            );
        }
        Err(difference) => {
            println!("DIFFERENCE: {difference}");
            std::process::exit(1);
        }
    }
    library.end();
}

/// As many parts as there is time for.
fn parts(library: &mut Library, quick: bool, seed: u64, time: Duration) -> Result<Counts, String> {
    let began = Instant::now();
    let mut all = Counts::new();
    let mut made = 0;
    while made < PARTS && (made == 0 || began.elapsed() < time) {
        for (kind, count) in leaves::part(library, quick, seed, (made, PARTS))? {
            *all.entry(kind).or_default() += count;
        }
        made += 1;
    }
    println!("{made} of {PARTS} parts of the comparisons, each with some of every kind");
    Ok(all)
}
