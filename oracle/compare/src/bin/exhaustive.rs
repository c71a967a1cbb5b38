//! Compares the original and the model on all short scripts with every plan of at most two faults, and the library
//! with the model if it is linked.
//!
//! `exhaustive [--depth N] [--faults N] [--device N] [--slots] [--piped]`: calls after the mount (3), faults in a plan (2), one device
//! instead of all; with calls of slots too.

use std::time::Instant;

use compare::arguments::{Arguments, stop};
use compare::exhaust;
use compare::library::Library;
use compare::pair::{self, library_differs};
use compare::tally::Tally;
use model::Model;
use script::{Machine, Script, shrink};

fn main() {
    let arguments = Arguments::read(&["depth", "faults", "device"], &["slots", "piped"]);
    let depth = arguments.number("depth", 3) as usize;
    let faults = arguments.number("faults", 2) as usize;
    let only = arguments.number("device", u64::MAX);
    let mut library = Library::find(arguments.flag("piped"));
    if !original::PRESENT && library.is_none() {
        stop("neither the original nor the library is there: nothing to compare");
    }
    println!("depth {depth}, at most {faults} faults");
    for (number, (about, setup)) in (0..).zip(exhaust::devices()) {
        if only != u64::MAX && only != number {
            continue;
        }
        let began = Instant::now();
        let mut tally = Tally::default();
        let mut bare = 0u64;
        exhaust::scripts(&setup, depth, arguments.flag("slots"), &mut |script| {
            bare += 1;
            exhaust::plans(&mut script.clone(), faults, &mut |script| {
                run(script, &mut tally, &mut library)
            });
        });
        if let Some(library) = &mut library
            && let Err(difference) = library.settle()
        {
            library_differs(library, &difference);
        }
        println!("device {number}, {about}: {bare} scripts without plans");
        print!("{tally}");
        println!(
            "no difference; {:.0} seconds",
            began.elapsed().as_secs_f64()
        );
    }
}

/// Compares one script and gives how many device calls it made.
fn run(script: &Script, tally: &mut Tally, library: &mut Option<Library>) -> u32 {
    if original::PRESENT
        && let Err(difference) = pair::compare(script, tally)
    {
        let small = shrink::shrink(script, |script| {
            pair::compare(script, &mut Tally::default()).is_err()
        });
        pair::finish(&small, &difference.to_string());
    }
    let bytes = script.bytes();
    if let Some(library) = library
        && let Err(difference) = library.expect_output(&bytes, &model::output(&bytes))
    {
        library_differs(library, &difference);
    }
    let mut model = Model::start(&script.setup);
    for op in &script.ops {
        model.step(op);
    }
    model.tables().place
}
