//! Compares the two ways to the library, linked and piped, on the same scripts: whole outputs, each into a buffer that is longer
//! than it has to be and into one of half the length. It needs a processor for which the library can be linked.
//!
//! `two_ways [--count N] [--seed N] [--optional]`. Without the linked library it says so and ends with 1, or with 0 if
//! `--optional` is given.

use std::time::Instant;

use compare::arguments::Arguments;
use compare::library::{Call, Difference, Library, NOT_LINKED, hex, linked};
use model::Model;
use script::make::{Flavour, Maker, whole};

fn main() {
    let arguments = Arguments::read(&["count", "seed"], &["optional"]);
    if !linked::PRESENT {
        println!("linked against piped skipped, since it needs an x86-64: {NOT_LINKED}");
        std::process::exit(i32::from(!arguments.flag("optional")));
    }
    let Some(mut piped) = Library::find(true) else {
        std::process::exit(1);
    };
    let (count, seed) = (
        arguments.number("count", 10_000),
        arguments.number("seed", 1),
    );
    let began = Instant::now();
    for number in 0..count {
        let flavour = if number % 2 == 0 {
            Flavour::Inside
        } else {
            Flavour::Wild
        };
        let mut maker = Maker::with_slot_calls(flavour, seed, number);
        let bytes = whole(&mut maker, Model::start).bytes();
        let script = &bytes[..];
        let length = linked::call(&Call::Script { script, room: 0 }, &mut []) as usize;
        for room in [length + 8, length / 2 + 1] {
            let call = Call::Script { script, room };
            let wanted = linked::answer(&call, piped.fill());
            if let Err(difference) = piped.expect(&call, wanted) {
                differ(&difference);
            }
        }
    }
    if let Err(difference) = piped.settle() {
        differ(&difference);
    }
    piped.end();
    println!(
        "linked against piped: {count} scripts, no difference; {:.1} seconds",
        began.elapsed().as_secs_f64()
    );
}

fn differ(difference: &Difference) -> ! {
    let script = hex(difference.script().unwrap_or_default());
    println!("DIFFERENCE: piped and linked: {difference}\nscript in hexadecimal: {script}");
    std::process::exit(1);
}
