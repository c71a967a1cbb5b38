//! Compares the original and the model on scripts made at random, and both with the library, linked or piped.
//!
//! `random [--flavour inside|wild] [--calls all|pool] [--seed N] [--count N] [--from N] [--threads N] [--optional] [--piped]
//! [--piped-seconds N]`. With `all` calls of slots are drawn between the pool's calls, at least one a script. With `inside` the
//! count is of scripts that lie wholly inside 01's domain; with `wild` of all scripts. A difference is shrunk, printed in words
//! and in hexadecimal, and ends the run with 1. Where the library is piped and a time is given, the run ends with that time, or
//! with the count if it comes first. Where there is nothing to compare it ends with 1, or with 0 if `--optional` is given.

use std::sync::atomic::{AtomicU64, Ordering};
use std::time::{Duration, Instant};

use compare::arguments::{Arguments, stop};
use compare::library::{Difference, Library};
use compare::pair::{self, Pair, Step, finish, library_differs};
use compare::tally::Tally;
use model::Model;
use script::make::{Flavour, Maker};
use script::random::Rng;
use script::{Machine, Runner, Script};

/// What a thread is to do.
#[derive(Clone, Copy)]
struct Task {
    flavour: Flavour,
    maker: fn(Flavour, u64, u64) -> Maker,
    seed: u64,
    count: u64,
    /// When to end, if not by the count.
    until: Option<Instant>,
}

/// What all threads share.
#[derive(Default)]
struct Shared {
    /// The next script's number.
    next: AtomicU64,
    /// Scripts that count.
    counted: AtomicU64,
    /// Scripts that the library ran, whole ones and damaged ones.
    whole: AtomicU64,
    damaged: AtomicU64,
}

fn main() {
    let arguments = Arguments::read(
        &[
            "flavour",
            "calls",
            "seed",
            "count",
            "from",
            "threads",
            "piped-seconds",
        ],
        &["optional", "piped"],
    );
    let flavour = match arguments.word("flavour", "inside").as_str() {
        "inside" => Flavour::Inside,
        "wild" => Flavour::Wild,
        _ => stop("--flavour is inside or wild"),
    };
    let (calls, maker): (_, fn(Flavour, u64, u64) -> Maker) =
        match arguments.word("calls", "all").as_str() {
            "all" => ("all calls", Maker::with_slot_calls),
            "pool" => ("the pool's calls", Maker::new),
            _ => stop("--calls is all or pool"),
        };
    let piped = arguments.flag("piped");
    let library = Library::find(piped);
    match (original::PRESENT, &library) {
        (false, None) if arguments.flag("optional") => {
            println!("scripts skipped: neither the original nor the library is there");
            return;
        }
        (false, None) => stop("neither the original nor the library is there: nothing to compare"),
        (false, Some(_)) => println!("original skipped: no regolith checkout when this was built"),
        (true, _) => (),
    }
    let began = Instant::now();
    let slow = library.as_ref().is_some_and(Library::is_piped);
    let seconds = arguments.number("piped-seconds", 0);
    let task = Task {
        flavour,
        maker,
        seed: arguments.number("seed", 1),
        count: arguments.number("count", 100_000),
        until: (slow && seconds > 0).then(|| began + Duration::from_secs(seconds)),
    };
    let threads = arguments.number("threads", 1).max(1);
    println!(
        "flavour {flavour:?}, {calls}, seed {}, count {}, {threads} thread(s)",
        task.seed, task.count
    );
    let name = library.as_ref().map(|library| library.name());
    let more: Vec<Option<Library>> = (1..threads).map(|_| name.map(|_| again(piped))).collect();
    let libraries = more.into_iter().chain([library]);
    let shared = Shared {
        next: AtomicU64::new(arguments.number("from", 0)),
        ..Shared::default()
    };
    let mut all = Tally::default();
    std::thread::scope(|scope| {
        let start = |library| scope.spawn(|| work(task, library, &shared));
        let workers: Vec<_> = libraries.map(start).collect();
        for worker in workers {
            all.add(&worker.join().expect("a difference ends the whole program"));
        }
    });
    print!("{all}");
    if let Some(name) = name {
        println!(
            "{name}: {} scripts and {} damaged ones, each by its whole output and by half of it",
            shared.whole.load(Ordering::Relaxed),
            shared.damaged.load(Ordering::Relaxed)
        );
    }
    println!(
        "no difference; {:.0} seconds; script numbers up to {}",
        began.elapsed().as_secs_f64(),
        shared.next.load(Ordering::Relaxed)
    );
}

/// The library once more, for another thread.
fn again(piped: bool) -> Library {
    Library::find_silently(piped).unwrap_or_else(|why| stop(&why))
}

/// Takes script numbers until enough scripts are counted, or the time is over.
fn work(task: Task, mut library: Option<Library>, shared: &Shared) -> Tally {
    let mut tally = Tally::default();
    let over = || task.until.is_some_and(|until| Instant::now() >= until);
    while shared.counted.load(Ordering::Relaxed) < task.count && !over() {
        let number = shared.next.fetch_add(1, Ordering::Relaxed);
        let inside_before = tally.wholly_inside;
        let mut maker = (task.maker)(task.flavour, task.seed, number);
        let found = match go_along(&mut maker, &mut tally) {
            Ok(found) => found,
            Err(differs) => report(&differs.0, number, &differs.1),
        };
        if let Some(library) = &mut library
            && let Err(difference) = on_library(library, &found, task.seed, number, shared)
        {
            library_differs(library, &difference);
        }
        let counts = match task.flavour {
            Flavour::Inside => tally.wholly_inside - inside_before,
            Flavour::Wild => 1,
        };
        shared.counted.fetch_add(counts, Ordering::Relaxed);
    }
    if let Some(mut library) = library {
        if let Err(difference) = library.settle() {
            library_differs(&mut library, &difference);
        }
        library.end();
    }
    tally
}

/// Draws a script with both machines going along, or with the model alone if there is no original.
fn go_along(maker: &mut Maker, tally: &mut Tally) -> Result<Script, Box<(Script, String)>> {
    let setup = maker.setup().clone();
    let mut found = Script {
        setup,
        ops: Vec::new(),
    };
    let Some(mut pair) = Pair::start(&found.setup) else {
        return Ok(model_only(maker, tally));
    };
    let mut seen = tally.script();
    while let Some(op) = maker.draw() {
        found.ops.push(op.clone());
        match pair::guarded(|| pair.step(&op)) {
            Ok((step, answer)) => {
                seen.operation(&op, &answer, &step);
                maker.saw(&op, &answer);
                if matches!(step, Step::Ends(_)) {
                    break;
                }
            }
            Err(difference) => return Err(Box::new((found, difference))),
        }
    }
    seen.done();
    Ok(found)
}

fn model_only(maker: &mut Maker, tally: &mut Tally) -> Script {
    let mut machine = Model::start(maker.setup());
    let mut seen = tally.script();
    let mut ops = Vec::new();
    while let Some(op) = maker.draw() {
        let answer = machine.step(&op);
        let step = if pair::only_in_01(&op, answer.number) {
            Step::Outside
        } else {
            Step::Inside
        };
        seen.operation(&op, &answer, &step);
        maker.saw(&op, &answer);
        ops.push(op);
    }
    seen.done();
    Script {
        setup: maker.setup().clone(),
        ops,
    }
}

/// Runs a script on the library, and the same damaged.
fn on_library(
    library: &mut Library,
    found: &Script,
    seed: u64,
    number: u64,
    shared: &Shared,
) -> Result<(), Difference> {
    let mut bytes = found.bytes();
    library.expect_output(&bytes, &model::output(&bytes))?;
    shared.whole.fetch_add(1, Ordering::Relaxed);
    if damage(&mut bytes, seed, number) {
        library.expect_output(&bytes, &model::output(&bytes))?;
        shared.damaged.fetch_add(1, Ordering::Relaxed);
    }
    Ok(())
}

/// Cuts a script off or changes one byte, mostly: it may not be whole any more, or end early.
fn damage(bytes: &mut Vec<u8>, seed: u64, number: u64) -> bool {
    let mut rng = Rng::new(!seed, number);
    let at = rng.below(bytes.len());
    match rng.below(4) {
        0 => bytes.truncate(at),
        1 => bytes[at] = rng.next() as u8,
        2 => bytes[at.min(8)] ^= 1 << rng.below(8),
        _ => return false,
    }
    true
}

fn report(found: &Script, number: u64, difference: &str) -> ! {
    println!("script {number}: {difference}");
    println!("shrinking; panics in between are part of it");
    let small = script::shrink::shrink(found, |script| {
        pair::compare(script, &mut Tally::default()).is_err()
    });
    let difference = pair::compare(&small, &mut Tally::default()).err();
    finish(&small, &difference.unwrap_or_default())
}
