//! Shows where document 01 and the original differ outside 01's domain: each class by its smallest script, run on both,
//! with nothing kept from the original.
//!
//! `differences [--search N] [--seed N]`. With `--search` scripts are drawn at random, and the first of each class of
//! difference is shrunk and printed, so that no class is missing from the list. Built with `--profile wrapping` the
//! original's sums wrap around instead of panicking.

use std::collections::BTreeMap;

use compare::arguments::{Arguments, stop};
use compare::edges::{SLOT_SIZE, blank};
use compare::pair::guarded;
use compare::tally::NAMES;
use model::Model;
use original::{Decoded, Original};
use script::make::{Block, Flavour, Maker, whole};
use script::{Handle, Machine, Op, Script, Setup, SlotHeader, shrink};

const HALF: u64 = 1 << 63;

fn main() {
    let arguments = Arguments::read(&["search", "seed"], &[]);
    if !original::PRESENT {
        stop("no regolith checkout: there is nothing to differ from");
    }
    std::panic::set_hook(Box::new(|_| ()));
    match arguments.number("search", 0) {
        0 => listed(),
        count => search(count, arguments.number("seed", 1)),
    }
}

/// What the two come to at the first operation in which they differ.
struct Found {
    code: u8,
    number: u8,
    original: String,
}

/// Runs a script on both, nothing kept from the original.
fn differ(script: &Script) -> Option<Found> {
    let mut model = Model::start(&script.setup);
    let mut original = Original::start(&script.setup)?;
    for op in &script.ops {
        let wanted = model.step(op);
        let found = |original: String| {
            Some(Found {
                code: op.code(),
                number: wanted.number,
                original,
            })
        };
        let given = match guarded(|| Ok(original.step(op, None))) {
            Ok(given) => given,
            Err(panic) => return found(panic),
        };
        let tables = original.tables();
        let parts = tables.difference(&model.tables());
        if given != wanted || parts.is_some() {
            let parts = parts.unwrap_or("tables equal".to_owned());
            let counter = tables.pool.map_or(0, |pool| pool.counter);
            return found(format!(
                "{} {:02x?}, counter {counter} ({parts})",
                given.number, given.results
            ));
        }
    }
    None
}

/// A device with these headers, and blank slots after them.
fn claims(headers: &[(&str, u64, u64)], slots: usize) -> Setup {
    let mut made = blank(slots);
    for (slot, (path, generation, length)) in headers.iter().enumerate() {
        made.lengths[slot] = 512;
        let block = Block::claim(path.as_bytes(), *generation, *length);
        made.patches.push((slot as u32 * SLOT_SIZE, block.bytes()));
    }
    made
}

fn path(text: &str) -> Vec<u8> {
    text.as_bytes().to_vec()
}

/// The classes by their smallest scripts.
fn scripts() -> Vec<(&'static str, Script)> {
    let open = |text: &str| Op::OpenWrite(0, path(text));
    let first = Handle {
        slot: 0,
        generation: 1,
    };
    let rows = |dir_rows, setup: Setup| Setup { dir_rows, ..setup };
    let slot_rows = |slot_rows, setup: Setup| Setup { slot_rows, ..setup };
    let far = u64::MAX - 511;
    let sync = |slot, in_use, path: Vec<u8>| {
        let header = SlotHeader {
            in_use,
            length: 0,
            generation: 0,
            path,
        };
        vec![Op::SyncSlot(slot, header)]
    };
    let odd = Setup {
        slot_size: 513,
        ..blank(1)
    };
    let cases: Vec<(&'static str, Setup, Vec<Op>)> = vec![
        ("2, slot size", odd.clone(), vec![Op::Mount(1)]),
        ("2, read_slot", odd.clone(), vec![Op::ReadSlot(0, 0, 0)]),
        (
            "2, write_slot",
            odd.clone(),
            vec![Op::WriteSlot(0, 0, vec![])],
        ),
        ("2, sync_slot", odd.clone(), sync(0, 0, vec![])),
        ("2, flush_slot", odd.clone(), vec![Op::FlushSlot(0)]),
        ("2, truncate_slot", odd, vec![Op::TruncateSlot(0, 0)]),
        ("3, sync_slot", blank(1), sync(0, 1, vec![0xFF])),
        ("3 before 6, sync_slot", blank(1), sync(1, 1, vec![0xFF])),
        ("4, sync_slot", blank(1), sync(0, 1, vec![b'y'; 481])),
        (
            "a free header with a path",
            blank(1),
            sync(0, 0, vec![b'a']),
        ),
        (
            "place past u64, read_slot",
            claims(&[("", 1, 0)], 1),
            vec![Op::ReadSlot(0, far, 4)],
        ),
        (
            "place past u64, write_slot",
            blank(1),
            vec![Op::WriteSlot(0, far, vec![])],
        ),
        (
            "place past u64, truncate_slot",
            blank(1),
            vec![Op::TruncateSlot(0, far)],
        ),
        ("2, slot rows", slot_rows(65, blank(1)), vec![Op::Mount(1)]),
        ("2, directory rows", rows(257, blank(1)), vec![Op::Mount(1)]),
        (
            "3, open",
            blank(1),
            vec![Op::Mount(1), Op::OpenWrite(0, vec![0xFF])],
        ),
        (
            "3, asking",
            blank(1),
            vec![Op::Mount(1), Op::Exists(vec![0xFF])],
        ),
        (
            "4, directory",
            blank(1),
            vec![Op::Mount(1), Op::CreateDirAll(vec![b'y'; 481])],
        ),
        ("8, open", rows(0, blank(1)), vec![Op::Mount(1), open("/b")]),
        (
            "8, rename",
            rows(0, blank(1)),
            vec![Op::Mount(1), open("a"), Op::Rename(path("a"), path("/a"))],
        ),
        (
            "8, create_dir_all",
            rows(0, blank(1)),
            vec![Op::Mount(1), Op::CreateDirAll(path("a"))],
        ),
        (
            "8, mount",
            rows(0, claims(&[("/a", 1, 0)], 1)),
            vec![Op::Mount(1)],
        ),
        (
            "8, adopt",
            rows(0, claims(&[("a", 1, 0), ("/a", 1, 0)], 2)),
            vec![Op::Mount(1), Op::Adopt(1)],
        ),
        (
            "9, open",
            claims(&[("a", HALF - 1, 0)], 2),
            vec![Op::Mount(2), open("b")],
        ),
        (
            "9, rename",
            claims(&[("a", HALF - 1, 0)], 1),
            vec![Op::Mount(1), Op::Rename(path("a"), path("b"))],
        ),
        (
            "9, rename onto a file",
            claims(&[("a", HALF - 2, 0), ("b", 1, 0)], 2),
            vec![Op::Mount(2), Op::Rename(path("a"), path("b"))],
        ),
        (
            "9, remove",
            claims(&[("a", HALF - 1, 0)], 1),
            vec![Op::Mount(1), Op::Remove(path("a"))],
        ),
        ("9, mount", claims(&[("a", HALF, 0)], 1), vec![Op::Mount(1)]),
        (
            "9, mount with a loser",
            claims(&[("a", HALF - 1, 0), ("a", 0, 0)], 2),
            vec![Op::Mount(2)],
        ),
        (
            "9, adopt",
            claims(&[("a", 1, 0), ("b", HALF, 0)], 2),
            vec![Op::Mount(1), Op::Adopt(1)],
        ),
        (
            "9, generation 2^64-1",
            claims(&[("a", u64::MAX, 0)], 1),
            vec![Op::Mount(1)],
        ),
        (
            "9, losers past 2^64",
            claims(&[("a", u64::MAX - 1, 0), ("a", 0, 0)], 2),
            vec![Op::Mount(2)],
        ),
        ("12, slot rows", slot_rows(1, blank(2)), vec![Op::Mount(2)]),
        ("12, device", slot_rows(2, blank(1)), vec![Op::Mount(2)]),
        (
            "12, adopt",
            slot_rows(1, blank(2)),
            vec![Op::Mount(1), Op::Adopt(1)],
        ),
        (
            "place past u64, write",
            blank(1),
            vec![Op::Mount(1), open("a"), Op::Write(first, far, vec![])],
        ),
        (
            "place past u64, set_len",
            blank(1),
            vec![Op::Mount(1), open("a"), Op::SetLen(first, far)],
        ),
        (
            "place past u64, read",
            claims(&[("a", 1, u64::MAX)], 1),
            vec![Op::Mount(1), Op::Read(first, far, 4)],
        ),
        (
            "failing sync_dir over several files",
            Setup {
                plan: vec![0, 0, 0, 0, 0, 0, 1],
                ..blank(2)
            },
            vec![Op::Mount(2), open("a"), open("c"), Op::SyncDir(vec![])],
        ),
    ];
    let build = |(class, setup, ops)| (class, Script { setup, ops });
    cases.into_iter().map(build).collect()
}

fn listed() {
    for (class, script) in scripts() {
        let words: Vec<String> = script.ops.iter().map(Op::to_string).collect();
        match differ(&script) {
            Some(found) => println!(
                "{class} | {} | {} | {:.160}",
                words.join("; "),
                found.number,
                found.original
            ),
            None => println!("{class} | {} | NO DIFFERENCE", words.join("; ")),
        }
    }
    long_encoding();
    unbound_mark();
    spelling_listed();
}

fn long_encoding() {
    let header = Decoded {
        in_use: true,
        path: "y".repeat(481),
        len: 0,
        generation: 0,
    };
    let given = guarded(|| Ok(original::encode_header(&header).is_some()));
    println!("4, encoder | encode a path of 481 bytes | 4 | {given:?}");
}

/// 01 leaves the dirty mark of an unbound slot out; here it is seen.
fn unbound_mark() {
    let setup = Setup {
        plan: vec![0, 0, 2],
        ..blank(1)
    };
    let ops = [
        Op::Mount(1),
        Op::OpenWrite(0, path("a")),
        Op::Remove(path("a")),
    ];
    let mut model = Model::start(&setup);
    let Some(mut original) = Original::start(&setup) else {
        return;
    };
    for op in &ops {
        let (wanted, given) = (model.step(op), original.step(op, None));
        println!(
            "dirty mark | {op} with plan {:?} | {} | {}, marks {:?}",
            setup.plan,
            wanted.number,
            given.number,
            original.dirty_marks()
        );
    }
}

/// 01 compares listings as sets of paths; here the spelling is seen.
fn spelling_listed() {
    let setup = blank(2);
    let Some(mut original) = Original::start(&setup) else {
        return;
    };
    let mut model = Model::start(&setup);
    let ops = [
        Op::Mount(2),
        Op::OpenWrite(0, path("d/a")),
        Op::OpenWrite(0, path("b")),
        Op::Rename(path("b"), path("d/a/")),
    ];
    for op in &ops {
        original.step(op, None);
        model.step(op);
    }
    let listing = model.step(&Op::ReadDir(20, path("d")));
    println!(
        "listing's spelling | open d/a; open b; rename b d/a/; read_dir d | {} | {:?}",
        listing.results.escape_ascii(),
        original.listed(b"d").map(|seen| seen
            .iter()
            .map(|(_, name)| name.escape_ascii().to_string())
            .collect::<Vec<_>>())
    );
}

/// The first script of each class that chance finds, shrunk.
fn search(count: u64, seed: u64) {
    let mut classes: BTreeMap<(u8, u8), (u64, Script, String)> = BTreeMap::new();
    for number in 0..count {
        let mut maker = Maker::with_slot_calls(Flavour::Wild, seed, number);
        let script = whole(&mut maker, Model::start);
        if !shaped(&script.setup) {
            continue;
        }
        let Some(found) = differ(&script) else {
            continue;
        };
        let key = (found.code, found.number);
        if let Some(known) = classes.get_mut(&key) {
            known.0 += 1;
            continue;
        }
        let small = shrink::shrink(&script, |script| {
            shaped(&script.setup)
                && differ(script).is_some_and(|other| (other.code, other.number) == key)
        });
        let said = differ(&small).map_or(String::new(), |found| found.original);
        classes.insert(key, (1, small, said));
    }
    for ((code, number), (times, script, said)) in &classes {
        println!(
            "{} with 01's number {number}, {times} times of {count}; the original: {said}\n{script}",
            NAMES[usize::from(*code)]
        );
    }
}

/// Whether the memory device below the original can take the setup; where it can't there is nothing to run.
fn shaped(setup: &Setup) -> bool {
    setup.slot_size >= 512
        && setup
            .lengths
            .iter()
            .all(|length| *length <= setup.slot_size)
}
