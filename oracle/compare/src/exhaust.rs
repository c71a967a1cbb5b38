//! All short scripts over a few small devices, each with every plan of at most a few faults.
//!
//! A script is a mount, then words of an alphabet of calls. Calls that only ask come last only: the tables are
//! compared after every operation anyway. A handle is that of a slot as it stands when no call fails.

use model::Model;
use script::make::Block;
use script::{Handle, Machine, Op, Script, Setup, SlotHeader, Tables};

/// Longer than any script's device calls, so that the plan's place counts them.
const PLAN: usize = 80;
const SIZE: u32 = 1024;

/// A device to start from, by what it is about.
pub fn devices() -> Vec<(&'static str, Setup)> {
    let claim = |path: &str, generation, length| Block::claim(path.as_bytes(), generation, length);
    let free = |generation| Block {
        flags: 0,
        ..Block::claim(b"", generation, 0)
    };
    vec![
        ("two blank slots", device(&[None, None])),
        (
            "one path claimed twice by equal generations, and a free header",
            device(&[
                Some(claim("a", 5, 4)),
                Some(claim("a/", 5, 9)),
                Some(free(8)),
            ]),
        ),
        (
            "one path claimed three times, and another",
            device(&[
                Some(claim("a", 5, 4)),
                Some(claim("a", 7, 600)),
                Some(claim("./b", 2, 0)),
                Some(claim("a//", 6, 1)),
            ]),
        ),
        (
            "files in a directory, in use with an empty path",
            device(&[
                Some(claim("d/a", 3, 3)),
                Some(claim("b", 1, 512)),
                Some(claim("", 4, 4)),
            ]),
        ),
    ]
}

fn device(blocks: &[Option<Block>]) -> Setup {
    let mut setup = Setup {
        slot_rows: blocks.len() as u8,
        dir_rows: 16,
        slot_size: SIZE,
        plan: vec![0; PLAN],
        lengths: Vec::new(),
        patches: Vec::new(),
    };
    for (slot, block) in (0..).zip(blocks) {
        match block {
            Some(block) => {
                setup.lengths.push(700);
                setup.patches.push((slot * SIZE, block.bytes()));
                setup
                    .patches
                    .push((slot * SIZE + 512, vec![slot as u8 + 1; 200]));
            }
            None => setup.lengths.push(0),
        }
    }
    setup
}

/// Calls of slots, for scripts that have them between the pool's.
fn slot_alphabet(slots: u8) -> Vec<Op> {
    let header = |in_use, generation, path: &str| SlotHeader {
        in_use,
        length: 4,
        generation,
        path: path.as_bytes().to_vec(),
    };
    vec![
        Op::ReadSlot(0, 0, 8),
        Op::ReadSlot(1, 180, 600),
        Op::WriteSlot(0, 2, vec![7, 8, 9]),
        Op::WriteSlot(1, 511, vec![4, 5]),
        Op::SyncSlot(0, header(1, 9, "a")),
        Op::SyncSlot(1, header(255, 9, "d/a")),
        Op::SyncSlot(1, header(0, 8, "")),
        Op::SyncSlot(u32::from(slots), header(1, 3, "b")),
        Op::FlushSlot(0),
        Op::TruncateSlot(0, 1),
        Op::TruncateSlot(1, 512),
    ]
}

/// The calls of the alphabet, those that change something first; the second part only asks.
fn alphabet(slots: u8, slot_calls: bool, tables: &Tables) -> (Vec<Op>, Vec<Op>) {
    let handle = |slot: u32| Handle {
        slot,
        generation: tables
            .pool
            .as_ref()
            .and_then(|pool| pool.rows.get(slot as usize))
            .map_or(0, |row| row.generation),
    };
    let (h0, h1) = (handle(0), handle(1));
    let path = |text: &str| text.as_bytes().to_vec();
    let mut changing = vec![
        Op::Mount(slots),
        Op::Mount(slots - 1),
        Op::Adopt(1),
        Op::OpenWrite(0, path("a")),
        Op::OpenWrite(1, path("a/")),
        Op::OpenWrite(0, path("b")),
        Op::OpenWrite(0, path("d/a")),
        Op::Read(h0, 0, 8),
        Op::Read(h1, 3, 600),
        Op::Write(h0, 0, vec![1, 2, 3]),
        Op::Write(h0, 511, vec![4, 5, 6]),
        Op::Write(h1, 20, vec![]),
        Op::SetLen(h0, 5),
        Op::SetLen(h1, 512),
        Op::SetLen(h1, 513),
        Op::Sync(h0),
        Op::Sync(h1),
        Op::SyncDir(path("")),
        Op::SyncDir(path("d/.")),
        Op::Rename(path("a"), path("b")),
        Op::Rename(path("b"), path("a//")),
        Op::Rename(path("a"), path("d/a")),
        Op::Rename(path("d/a"), path("a/")),
        Op::Rename(path("a"), path("a/")),
        Op::Rename(path("b"), path("")),
        Op::Remove(path("a")),
        Op::Remove(path("b")),
        Op::CreateDirAll(path("d//e")),
    ];
    if slot_calls {
        changing.extend(slot_alphabet(slots));
    }
    let asking = vec![
        Op::OpenRead(path("a")),
        Op::FileLen(h0),
        Op::ReadDir(64, path("d")),
        Op::ReadDir(64, path("")),
        Op::Exists(path("./a")),
        Op::Metadata(path("d")),
    ];
    (changing, asking)
}

/// Calls `each` for every script of at most `depth` calls after the mount, faults not yet in the plan. With `slot_calls` calls
/// of slots are among them.
pub fn scripts(setup: &Setup, depth: usize, slot_calls: bool, each: &mut dyn FnMut(&Script)) {
    let slots = setup.lengths.len() as u8;
    for first in [slots, slots - 1] {
        let mut script = Script {
            setup: setup.clone(),
            ops: vec![Op::Mount(first)],
        };
        extend(&mut script, depth, slot_calls, each);
    }
}

fn extend(script: &mut Script, depth: usize, slot_calls: bool, each: &mut dyn FnMut(&Script)) {
    if depth == 0 {
        return each(script);
    }
    let mut model = Model::start(&script.setup);
    for op in &script.ops {
        model.step(op);
    }
    let slots = script.setup.lengths.len() as u8;
    let (changing, asking) = alphabet(slots, slot_calls, &model.tables());
    for op in changing {
        script.ops.push(op);
        extend(script, depth - 1, slot_calls, each);
        script.ops.pop();
    }
    for op in asking {
        script.ops.push(op);
        each(script);
        script.ops.pop();
    }
}

/// Calls `run` with every plan of at most `faults` faults; `run` gives how many device calls were made. Only
/// places that a call reaches are given a fault, so that no two plans are the same.
pub fn plans(script: &mut Script, faults: usize, run: &mut dyn FnMut(&Script) -> u32) {
    plans_from(script, faults, 0, run);
}

fn plans_from(
    script: &mut Script,
    faults: usize,
    from: usize,
    run: &mut dyn FnMut(&Script) -> u32,
) {
    let calls = run(script) as usize;
    assert!(calls < PLAN, "the plan must be longer than the calls");
    if faults == 0 {
        return;
    }
    for place in from..calls {
        for fault in [1, 2] {
            script.setup.plan[place] = fault;
            plans_from(script, faults - 1, place + 1, run);
        }
        script.setup.plan[place] = 0;
    }
}
