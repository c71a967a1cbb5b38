//! Times the original, a plain table scan (the model of 01) and the library on the same scripts in one process, and
//! prints what one call costs, each by the first, with the noise of the measurement.
//!
//! `bench [--turns N]`. Each script makes one kind of call many times over; the setup and the mount are timed with it,
//! and the same script without the calls is taken off, turn by turn. The library's time holds the reading of the script
//! and the writing of the answers; its calls are the public ones, each of which tests the whole record first. What
//! that test costs alone, and what a search costs without it, is printed apart. The original's time holds no part of
//! the model: only scripts inside 01's domain are run. Build it with `--profile wrapping`.

use std::hint::black_box;
use std::time::Instant;

use compare::arguments::Arguments;
use compare::library::{Library, NOT_LINKED, linked};
use compare::rows::{self, Rows};
use model::Model;
use model::header::{self, Header};
use original::Original;
use script::{Handle, Machine, Op, Runner, Script, Setup};

/// Calls in a script.
const CALLS: usize = 200;

/// One way to run scripts, by name.
struct Way {
    name: &'static str,
    run: fn(&Script, &[u8], &mut [u8]),
}

/// A script with the calls and one without.
struct Case {
    what: String,
    with: Script,
    without: Script,
}

fn main() {
    let arguments = Arguments::read(&["turns"], &[]);
    let turns = arguments.number("turns", 31).max(3) as usize;
    let ways = ways();
    let names: Vec<&str> = ways.iter().map(|way| way.name).collect();
    println!(
        "nanoseconds a call, medians of {turns} turns: {}; then each by the first; then the noise, half the distance of the quartiles",
        names.join(", ")
    );
    for case in cases() {
        let samples = measure(&ways, &case, turns);
        let medians: Vec<f64> = samples.iter().map(|times| at(times, 2)).collect();
        let noise = samples
            .iter()
            .map(|times| (at(times, 3) - at(times, 1)) / 2.0 / at(times, 2).max(1.0));
        println!(
            "{:<34}{}  |{}  |{}",
            case.what,
            joined(medians.iter().map(|time| format!("{time:>9.0}"))),
            joined(
                medians
                    .iter()
                    .map(|time| format!("{:>7.2}", time / medians[0]))
            ),
            joined(noise.map(|part| format!("{:>5.0}%", part * 100.0))),
        );
    }
    inner(turns);
}

fn joined(parts: impl Iterator<Item = String>) -> String {
    parts.collect::<Vec<_>>().concat()
}

fn ways() -> Vec<Way> {
    let mut ways = Vec::new();
    if original::PRESENT {
        ways.push(Way {
            name: "original",
            run: run_original,
        });
    } else {
        println!("original skipped: no regolith checkout when this was built");
    }
    ways.push(Way {
        name: "table scan",
        run: run_model,
    });
    if linked::PRESENT {
        ways.push(Way {
            name: "library",
            run: run_library,
        });
    } else {
        println!("library skipped, since only the linked one is timed: {NOT_LINKED}");
    }
    ways
}

/// The quartiles of sorted times, by number.
fn at(times: &[f64], quarter: usize) -> f64 {
    times[(times.len() - 1) * quarter / 4]
}

/// For each way the sorted times of one call. The ways take turns, so that a slow moment of the machine meets all.
fn measure(ways: &[Way], case: &Case, turns: usize) -> Vec<Vec<f64>> {
    let (with, without) = (case.with.bytes(), case.without.bytes());
    let mut out = vec![0; 1 << 21];
    let mut samples = vec![Vec::new(); ways.len()];
    for _ in 0..turns {
        for (way, times) in ways.iter().zip(&mut samples) {
            let whole = time(way, &case.with, &with, &mut out);
            let rest = time(way, &case.without, &without, &mut out);
            times.push((whole - rest).max(0.0) / CALLS as f64);
        }
    }
    samples
        .iter_mut()
        .for_each(|times| times.sort_by(f64::total_cmp));
    samples
}

/// Nanoseconds of one run.
fn time(way: &Way, script: &Script, bytes: &[u8], out: &mut [u8]) -> f64 {
    let began = Instant::now();
    (way.run)(black_box(script), black_box(bytes), out);
    black_box(out);
    began.elapsed().as_nanos() as f64
}

fn run_original(script: &Script, _bytes: &[u8], _out: &mut [u8]) {
    let Some(mut original) = Original::start(&script.setup) else {
        return;
    };
    for op in &script.ops {
        black_box(original.step(op, None));
    }
    black_box(original.tables());
}

fn run_model(script: &Script, _bytes: &[u8], _out: &mut [u8]) {
    let mut model = Model::start(&script.setup);
    for op in &script.ops {
        black_box(model.step(op));
    }
    black_box(model.tables());
}

fn run_library(_script: &Script, bytes: &[u8], out: &mut [u8]) {
    Library::Linked.run(bytes, out);
}

/// The path of one file, of that many bytes.
fn name(file: usize, length: usize) -> Vec<u8> {
    let tail = format!("{file:04}");
    let mut path = b"tiles/".to_vec();
    path.resize(length - tail.len(), b'x');
    path.extend(tail.into_bytes());
    path
}

/// A device of that many slots, with as many slot rows and 16 directory rows.
fn device(slots: usize, slot_size: u32) -> Setup {
    Setup {
        slot_rows: slots as u8,
        dir_rows: 16,
        slot_size,
        plan: Vec::new(),
        lengths: vec![0; slots],
        patches: Vec::new(),
    }
}

/// So many calls after what comes before them, and the same without the calls.
fn case(what: String, setup: &Setup, before: &[Op], call: impl Fn(usize) -> Op) -> Case {
    let script = |ops: Vec<Op>| Script {
        setup: setup.clone(),
        ops,
    };
    let calls = (0..CALLS).map(call);
    Case {
        what,
        with: script(before.iter().cloned().chain(calls).collect()),
        without: script(before.to_vec()),
    }
}

fn cases() -> Vec<Case> {
    let mut cases = Vec::new();
    for files in [8, 32, 64] {
        for length in [20, 400] {
            cases.extend(lookups(files, length));
        }
    }
    for bytes in [512, 4096] {
        cases.extend(moves(bytes));
    }
    cases.push(mounts());
    cases
}

/// Opens and metadata of so many files with paths so long.
fn lookups(files: usize, length: usize) -> Vec<Case> {
    let setup = device(files, 1024);
    let mut before = vec![Op::Mount(files as u8)];
    before.extend((0..files).map(|file| Op::OpenWrite(0, name(file, length))));
    let nth = |call: usize| call * 7 % files;
    let what = |call: &str| format!("{files:>2} files x {length:>3} bytes  {call}");
    vec![
        case(what("open_read"), &setup, &before, |call| {
            Op::OpenRead(name(nth(call), length))
        }),
        case(what("open_write"), &setup, &before, |call| {
            Op::OpenWrite(1, name(nth(call), length))
        }),
        case(what("metadata"), &setup, &before, |call| {
            Op::Metadata(name(nth(call), length))
        }),
        case(what("absent"), &setup, &before, |call| {
            Op::Metadata(name(files + nth(call), length))
        }),
    ]
}

/// Reads and writes of so many bytes, over eight files.
fn moves(bytes: usize) -> Vec<Case> {
    let setup = device(8, 8192);
    let mut before = vec![Op::Mount(8)];
    before.extend((0..8).map(|file| Op::OpenWrite(0, name(file, 20))));
    let handle = |call: usize| Handle {
        slot: (call % 8) as u32,
        generation: (call % 8) as u64 + 1,
    };
    before.extend((0..8).map(|file| Op::Write(handle(file), 0, vec![7; 4096])));
    vec![
        case(
            format!(" 8 files, {bytes:>4} bytes  read"),
            &setup,
            &before,
            |call| Op::Read(handle(call), 0, bytes as u16),
        ),
        case(
            format!(" 8 files, {bytes:>4} bytes  write"),
            &setup,
            &before,
            |call| Op::Write(handle(call), 0, vec![9; bytes]),
        ),
    ]
}

/// Mounts of 64 slots, each of which holds a file.
fn mounts() -> Case {
    let mut setup = device(64, 1024);
    setup.lengths = vec![512; 64];
    setup.patches = (0..64)
        .map(|slot| {
            let block = header::encode(&Header {
                in_use: true,
                path: name(slot, 20),
                length: 0,
                generation: slot as u64 + 1,
            });
            (slot as u32 * 1024, block.to_vec())
        })
        .collect();
    case("64 slots  mount".to_owned(), &setup, &[], |_| Op::Mount(64))
}

/// The test of the record and the search of a path, each without the rest of a public call.
fn inner(turns: usize) {
    if !rows::PRESENT {
        println!("the test alone and the search alone skipped: the library does not export them");
        return;
    }
    println!(
        "nanoseconds of the library's test of a record alone, and of a search in it without the test"
    );
    for files in [8, 32, 64] {
        for length in [20, 400] {
            let paths: Vec<Vec<u8>> = (0..files).map(|file| name(file, length)).collect();
            let rows = Rows::new(&paths, &[b"tiles".to_vec()], 16);
            let test = rows::median(turns, || assert!(black_box(&rows).library()));
            // One search a call: of several, all alike, the library makes one.
            let found = rows::median(turns, || {
                for path in &paths {
                    assert!(black_box(&rows).search(path, 1) == 1);
                }
            });
            println!(
                "{files:>2} files x {length:>3} bytes  test{:>9.0}  search{:>9.0}",
                test * 1e3,
                (found / files as f64 - test) * 1e3
            );
        }
    }
}
