//! Records scripts with the original's answers and tables, or checks a record.
//!
//! `record [--seed N] [--draw N] FOLDER` writes the four files below; `record --check [--piped] FOLDER` runs every recorded script on
//! the model, the original and the library, as far as they are there, and compares the whole output.
//!
//! A file is a run of entries: u32 script length, script, u32 output length, output, little-endian. `original.bin` holds
//! scripts on which the original and the model agreed at every step; where only 01 refuses, the number is 01's. `model.bin`
//! holds those that the original can't be asked: scripts that aren't whole, and places past u64. `slot_calls.bin` and
//! `slot_calls_model.bin` are the same for scripts with calls of slots.

use std::collections::BTreeSet;
use std::fs;
use std::ops::RangeInclusive;
use std::path::Path;

use compare::arguments::{Arguments, stop};
use compare::library::{Difference, Library};
use compare::pair::{OriginalRunner, Pair, Step};
use compare::tally::NAMES;
use compare::{edges, slot_edges};
use model::{Model, ModelRunner};
use script::make::{Flavour, Maker, whole};
use script::{Op, Runner, Script, Tables, shrink};

fn main() {
    let arguments = Arguments::read(&["seed", "draw"], &["check", "piped"]);
    let [folder] = arguments.plain() else {
        stop("record [--seed N] [--draw N] [--check] [--piped] FOLDER");
    };
    let folder = Path::new(folder);
    if arguments.flag("check") {
        return check(folder, arguments.flag("piped"));
    }
    if !original::PRESENT {
        stop("no regolith checkout: there is nothing to record");
    }
    fs::create_dir_all(folder).unwrap_or_else(|why| stop(&format!("{}: {why}", folder.display())));
    let seed = arguments.number("seed", 1);
    let draw = arguments.number("draw", 20_000);
    for (kind, files) in kinds().iter().zip(FILES) {
        let (asked, not_asked) = chosen(kind, seed, draw);
        save(&folder.join(files[0]), &asked);
        save(&folder.join(files[1]), &not_asked);
    }
}

/// What is recorded of the pool's calls and of the slots': what the original answers, and what the model alone does.
const FILES: [[&str; 2]; 2] = [
    ["original.bin", "model.bin"],
    ["slot_calls.bin", "slot_calls_model.bin"],
];

/// One kind of scripts to record.
struct Kind {
    edges: Vec<(&'static str, Script)>,
    maker: fn(Flavour, u64, u64) -> Maker,
    /// The calls of which something new is looked for.
    codes: RangeInclusive<u8>,
    /// Scripts that aren't whole or end early.
    not_whole: Vec<Vec<u8>>,
}

/// In the order of their files.
fn kinds() -> [Kind; 2] {
    [
        Kind {
            edges: edges::all(),
            maker: Maker::new,
            codes: 1..=16,
            not_whole: not_whole(),
        },
        Kind {
            edges: slot_edges::all(),
            maker: Maker::with_slot_calls,
            codes: 22..=26,
            not_whole: slot_edges::ending_early(),
        },
    ]
}

/// A script's bytes and the output's.
type Entry = (Vec<u8>, Vec<u8>);

fn save(file: &Path, entries: &[Entry]) {
    let mut bytes = Vec::new();
    for part in entries.iter().flat_map(|(script, output)| [script, output]) {
        bytes.extend((part.len() as u32).to_le_bytes());
        bytes.extend(part);
    }
    fs::write(file, &bytes).unwrap_or_else(|why| stop(&format!("{}: {why}", file.display())));
    println!(
        "{}: {} scripts, {} bytes",
        file.display(),
        entries.len(),
        bytes.len()
    );
}

/// Scripts drawn at random are recorded only over devices this small: the whole device is part of an output.
const SLOTS: usize = 3;

/// What an operation does, as far as it tells one case from another: call, number, device calls, and what changed: of the
/// pool's calls rows, queue and directories, of a slot's call the device's bytes and lengths, and whether there is a pool.
type Feature = (u8, u8, u32, [bool; 3]);

/// The run of a script on both machines.
struct Run {
    output: Vec<u8>,
    /// One for each operation.
    features: Vec<Feature>,
    /// Whether the original could be asked at every step.
    asked: bool,
}

fn run(script: &Script) -> Run {
    let mut pair = Pair::start(&script.setup).unwrap_or_else(|| stop("there is no original"));
    let mut output = Vec::new();
    let mut features = Vec::new();
    let mut asked = true;
    let mut before = pair.tables();
    for op in &script.ops {
        let (step, answer) = pair
            .step(op)
            .unwrap_or_else(|difference| stop(&format!("{difference}\n{script}")));
        if let Step::Ends(_) = step {
            asked = false;
            break;
        }
        let after = pair.tables();
        features.push(feature(op, answer.number, &before, &after));
        before = after;
        answer.write(&mut output);
    }
    if asked {
        before.write(&mut output);
    } else {
        output = model::output(&script.bytes());
    }
    Run {
        output,
        features,
        asked,
    }
}

fn feature(op: &Op, number: u8, before: &Tables, after: &Tables) -> Feature {
    let calls = after.place.wrapping_sub(before.place).min(6);
    if op.is_slot_call() {
        let changed = [
            before.device != after.device,
            before.lengths != after.lengths,
            after.pool.is_some(),
        ];
        return (op.code(), number, calls, changed);
    }
    let (Some(old), Some(new)) = (&before.pool, &after.pool) else {
        return (op.code(), number, calls.min(3), [false; 3]);
    };
    let changed = [
        old.rows != new.rows,
        old.queue != new.queue,
        old.dirs != new.dirs,
    ];
    (op.code(), number, calls, changed)
}

/// The edges, then scripts drawn at random as long as they show something new, shrunk to that.
fn chosen(kind: &Kind, seed: u64, draw: u64) -> (Vec<Entry>, Vec<Entry>) {
    let mut asked = Vec::new();
    let mut not_asked = Vec::new();
    let mut known = BTreeSet::new();
    for (_, script) in &kind.edges {
        let found = run(script);
        let list = if found.asked {
            &mut asked
        } else {
            &mut not_asked
        };
        known.extend(found.features);
        list.push((script.bytes(), found.output));
    }
    println!(
        "{} scripts of edges show {} cases",
        asked.len() + not_asked.len(),
        known.len()
    );
    for number in 0..draw {
        let flavour = if number % 2 == 0 {
            Flavour::Inside
        } else {
            Flavour::Wild
        };
        let mut script = whole(&mut (kind.maker)(flavour, seed, number), Model::start);
        if script.setup.lengths.len() > SLOTS {
            continue;
        }
        let found = run(&script);
        if !found.asked {
            continue;
        }
        let new = |seen: &Feature| kind.codes.contains(&seen.0) && !known.contains(seen);
        let Some(end) = found.features.iter().position(new) else {
            continue;
        };
        let new = found.features[end];
        script.ops.truncate(end + 1);
        let small = shrink::shrink(&script, |script| {
            let other = run(script);
            other.asked && other.features.contains(&new)
        });
        let found = run(&small);
        known.extend(found.features);
        asked.push((small.bytes(), found.output));
    }
    println!("{} of them can't be asked of the original", not_asked.len());
    println!("with scripts drawn at random, {} cases", known.len());
    covered(&kind.codes, &known);
    not_asked.extend(kind.not_whole.iter().map(|bytes| {
        let output = model::output(bytes);
        (bytes.clone(), output)
    }));
    (asked, not_asked)
}

/// The numbers that each call can give in a script, by the calls' codes.
const NUMBERS: [&[u8]; 27] = [
    &[],
    &[0, 2, 8, 9, 10, 12],
    &[0, 1, 8, 9, 10, 12],
    &[0, 1, 3, 4, 7, 8, 9, 10],
    &[0, 1, 3, 5],
    &[0, 1, 6, 10],
    &[0, 1, 6, 10, 11],
    &[0, 1, 6, 10],
    &[0, 1, 6],
    &[0, 1, 6, 10, 11],
    &[0, 1, 3, 10, 11],
    &[0, 1, 3, 4, 5, 8, 9, 10, 11],
    &[0, 1, 3, 5, 9, 10, 11],
    &[0, 1, 3, 4, 8],
    &[0, 1, 3, 5, 13],
    &[0, 1, 3],
    &[0, 1, 3, 5],
    &[],
    &[],
    &[],
    &[],
    &[],
    &[0, 2, 6, 10],
    &[0, 2, 6, 10, 11],
    &[0, 2, 3, 4, 6, 10, 11],
    &[0, 2, 6, 10],
    &[0, 2, 6, 10],
];

/// Says which numbers of each call are recorded, and stops if one that can be given is missing.
fn covered(codes: &RangeInclusive<u8>, known: &BTreeSet<Feature>) {
    for code in codes.clone() {
        let (name, wanted) = (NAMES[usize::from(code)], NUMBERS[usize::from(code)]);
        let seen: BTreeSet<u8> = known
            .iter()
            .filter(|feature| feature.0 == code)
            .map(|feature| feature.1)
            .collect();
        println!("  {name:<15}{seen:?}");
        if !seen.iter().eq(wanted.iter()) {
            stop(&format!("{name} should have {wanted:?}"));
        }
    }
}

/// Scripts that are cut off, have a wrong first byte, patch outside of the device or pass the script's own limits, and
/// some that only end early.
fn not_whole() -> Vec<Vec<u8>> {
    let mut setup = edges::claims(&[("a", 1, 1)], 0);
    setup.plan = vec![3];
    setup.slot_size = 512;
    setup.lengths = vec![512];
    setup.patches = vec![(0, vec![1, 2]), (510, vec![3, 4])];
    let good = Script {
        setup: setup.clone(),
        ops: vec![Op::Mount(1), Op::Exists(b"a".to_vec())],
    };
    let bytes = good.bytes();
    let mut found: Vec<Vec<u8>> = (0..bytes.len()).map(|end| bytes[..end].to_vec()).collect();
    let mut other = bytes.clone();
    other[0] = 2;
    found.push(other);
    for code in [0, 17, 255] {
        let mut other = bytes.clone();
        other.extend([code, 1, 1, 1]);
        found.push(other);
    }
    let with = |change: &dyn Fn(&mut script::Setup)| {
        let mut script = good.clone();
        change(&mut script.setup);
        script.bytes()
    };
    found.push(with(&|setup| setup.patches[1].0 += 1));
    found.push(with(&|setup| setup.patches[1].0 = u32::MAX));
    found.push(with(&|setup| setup.slot_rows = 67));
    found.push(with(&|setup| setup.dir_rows = 259));
    found.push(with(&|setup| setup.slot_size = 65_537));
    found.push(with(&|setup| setup.slot_size = u32::MAX));
    found.push(with(&|setup| {
        setup.slot_size = 512;
        setup.patches.clear();
        setup.lengths = vec![0; 65];
    }));
    found
}

/// Runs every entry on the model and the library.
fn check(folder: &Path, piped: bool) {
    let mut library = Library::find(piped);
    if !original::PRESENT {
        println!("original skipped: no regolith checkout when this was built");
    }
    let mut wrong = 0;
    for (name, asked) in FILES
        .as_flattened()
        .iter()
        .zip([true, false].iter().cycle())
    {
        let file = folder.join(name);
        let bytes =
            fs::read(&file).unwrap_or_else(|why| stop(&format!("{}: {why}", file.display())));
        let entries =
            entries(&bytes).unwrap_or_else(|| stop(&format!("{} is cut off", file.display())));
        for (number, (script, output)) in entries.iter().enumerate() {
            let mut model = ModelRunner;
            let mut original = OriginalRunner;
            let mut runners: Vec<&mut dyn Runner> = vec![&mut model];
            if original::PRESENT && *asked {
                runners.push(&mut original);
            }
            for runner in runners {
                let mut out = vec![0xA5; output.len() + 8];
                let length = runner.run(script, &mut out);
                if length != output.len()
                    || out[..length] != output[..]
                    || out[length..] != [0xA5; 8]
                {
                    wrong += 1;
                    println!("{name}, entry {number}: the {} differs", runner.name());
                }
            }
        }
        if let Some(library) = &mut library {
            wrong += check_library(library, name, &entries);
        }
        println!("{name}: {} entries run", entries.len());
    }
    if let Some(library) = library {
        library.end();
    }
    std::process::exit(i32::from(wrong > 0));
}

/// Runs every entry of a file on the library: how many are wrong.
fn check_library(library: &mut Library, name: &str, entries: &[Entry]) -> usize {
    let mut wrong = 0;
    let mut tell = |difference: &Difference| {
        let script = difference.script().unwrap_or_default();
        let number = entries.iter().position(|entry| entry.0 == script);
        let number = number.map_or("?".to_owned(), |number| number.to_string());
        println!("{name}, entry {number}: the library differs: {difference}");
        wrong += 1;
    };
    for (script, output) in entries {
        if let Err(difference) = library.expect_output(script, output) {
            tell(&difference);
        }
    }
    while let Err(difference) = library.settle() {
        tell(&difference);
    }
    wrong
}

fn entries(mut bytes: &[u8]) -> Option<Vec<Entry>> {
    let mut part = || -> Option<Vec<u8>> {
        let (length, rest) = bytes.split_first_chunk::<4>()?;
        let (part, rest) = rest.split_at_checked(u32::from_le_bytes(*length) as usize)?;
        bytes = rest;
        Some(part.to_vec())
    };
    let mut found = Vec::new();
    while let Some(script) = part() {
        found.push((script, part()?));
    }
    bytes.is_empty().then_some(found)
}
