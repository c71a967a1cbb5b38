//! Scripts for the edges of the slot calls: with and without a pool, both sides of each.

use script::{Handle, Op, Script, Setup, SlotHeader};

use crate::edges::{SLOT_SIZE, blank, claims};

/// Every path that isn't text, and one that is also too long.
fn not_text() -> [Vec<u8>; 2] {
    [b"a/\xff".to_vec(), [vec![b'x'; 480], vec![0xC3]].concat()]
}

/// Writes a header.
fn sync(slot: u32, in_use: u8, length: u64, generation: u64, path: &[u8]) -> Op {
    let path = path.to_vec();
    Op::SyncSlot(
        slot,
        SlotHeader {
            in_use,
            length,
            generation,
            path,
        },
    )
}

/// One of each call on a slot.
fn each(slot: u32) -> Vec<Op> {
    vec![
        Op::ReadSlot(slot, 0, 4),
        Op::WriteSlot(slot, 0, vec![1, 2, 3]),
        sync(slot, 1, 3, 7, b"d/a"),
        Op::FlushSlot(slot),
        Op::TruncateSlot(slot, 2),
    ]
}

/// All of them, by name.
pub fn all() -> Vec<(&'static str, Script)> {
    let mut found = Vec::new();
    let mut add = |name, setup, ops| found.push((name, Script { setup, ops }));
    places(&mut add);
    headers(&mut add);
    refusals(&mut add);
    faults(&mut add);
    under_a_pool(&mut add);
    past_u64(&mut add);
    found
}

type Add<'a> = &'a mut dyn FnMut(&'static str, Setup, Vec<Op>);

fn places(add: Add) {
    let reads = [
        (0, 9),
        (80, 9),
        (87, 4),
        (88, 4),
        (89, 4),
        (511, 4),
        (512, 4),
        (513, 4),
        (0xFFFF_FFFF, 4),
        (3, 0),
    ];
    let ops = reads.map(|(at, length)| Op::ReadSlot(0, at, length));
    let setup = Setup {
        plan: vec![0; 20],
        ..claims(&[("a", 1, 1)], 0)
    };
    add("slot reads around the physical length", setup, ops.to_vec());
    let writes = [
        (0, 0),
        (3, 2),
        (0, 1),
        (511, 1),
        (512, 0),
        (512, 1),
        (513, 0),
        (510, 4),
        (0, 512),
        (0, 513),
        (0xFFFF_FFFF, 1),
    ];
    for (at, length) in writes {
        let setup = Setup {
            lengths: vec![300, 0],
            patches: vec![(0, vec![9; SLOT_SIZE as usize])],
            ..blank(2)
        };
        let ops = vec![
            Op::WriteSlot(0, at, vec![7; length]),
            Op::ReadSlot(0, 0, 520),
        ];
        add("a slot write around the slot's end", setup, ops);
    }
    let mut cuts = vec![Op::WriteSlot(0, 0, vec![5; 30])];
    for length in [10, 20, 512, 513, 0, 1, 0xFFFF_FFFF] {
        cuts.push(Op::TruncateSlot(0, length));
        cuts.push(Op::ReadSlot(0, 0, 32));
    }
    add("slots cut and grown", blank(1), cuts);
    let small = Setup {
        slot_size: 512,
        ..blank(1)
    };
    add(
        "a slot that holds its header alone",
        small,
        vec![
            sync(0, 1, 0, 1, b"a"),
            Op::ReadSlot(0, 0, 2),
            Op::WriteSlot(0, 0, vec![]),
            Op::WriteSlot(0, 0, vec![1]),
            Op::WriteSlot(0, 1, vec![]),
            Op::TruncateSlot(0, 0),
            Op::TruncateSlot(0, 1),
            Op::Mount(1),
        ],
    );
}

fn headers(add: Add) {
    let long = |length: usize| vec![b'x'; length];
    add(
        "headers written, and what a mount makes of them",
        blank(4),
        vec![
            sync(0, 1, 3, 7, b"a//b"),
            sync(1, 255, 0xFFFF_FFFF, 8, b""),
            sync(2, 0, 5, 9, b""),
            sync(3, 2, 0, 6, b"a/b/"),
            Op::Mount(4),
            Op::ReadSlot(0, 0, 4),
        ],
    );
    add(
        "a header's path of 480 bytes, and of 481",
        blank(1),
        vec![
            sync(0, 1, 3, 7, &long(480)),
            sync(0, 1, 4, 8, &long(481)),
            sync(1, 1, 4, 8, &long(481)),
            Op::Mount(1),
        ],
    );
    let bad = not_text().map(|path| sync(0, 1, 1, 1, &path));
    let far = not_text().map(|path| sync(9, 0, 1, 1, &path));
    add(
        "a header's path that isn't text",
        blank(1),
        [bad, far].concat(),
    );
    add(
        "a header written over a longer one",
        claims(&[("a/long/name", 4, 2)], 0),
        vec![sync(0, 1, 1, 5, b"a"), Op::Mount(1)],
    );
}

fn refusals(add: Add) {
    let planned = Setup {
        plan: vec![0; 30],
        ..blank(1)
    };
    let ops = [1, 2, u32::MAX].map(each).concat();
    add(
        "slots that the device does not have",
        planned.clone(),
        ops.clone(),
    );
    let mounted = [vec![Op::Mount(1)], ops].concat();
    add("the same under a pool", planned, mounted);
    let none = Setup {
        slot_size: 512,
        ..blank(0)
    };
    add("a device of no slots", none, each(0));
    let text = |path: &[u8]| sync(9, 1, 1, 1, path);
    let wrong = [
        each(0),
        each(1),
        not_text().map(|path| text(&path)).to_vec(),
    ]
    .concat();
    for size in [0, 1, 511, 513, 1000, 1025] {
        let setup = Setup {
            slot_size: size,
            plan: vec![1, 2],
            ..blank(1)
        };
        add(
            "slot calls on a slot size of the wrong shape",
            setup,
            wrong.clone(),
        );
    }
    for size in [1_048_576, 1_048_576 + 512] {
        let setup = Setup {
            slot_size: size,
            ..blank(0)
        };
        add("slot calls on the largest slot size", setup, wrong.clone());
    }
    for length in [SLOT_SIZE, SLOT_SIZE + 1] {
        let setup = Setup {
            lengths: vec![0, length],
            ..blank(2)
        };
        add("slot calls and a physical length", setup, wrong.clone());
    }
    let many = Setup {
        slot_rows: 66,
        dir_rows: 258,
        ..blank(1)
    };
    let ops = [vec![Op::Mount(1)], each(0)].concat();
    add("rows of the wrong number are not looked at", many, ops);
}

fn faults(add: Add) {
    for bytes in [[1, 0], [2, 0], [0, 1], [0, 2], [3, 255]] {
        for op in each(0) {
            let setup = Setup {
                plan: bytes.to_vec(),
                ..claims(&[("z/long/name", 1, 1)], 0)
            };
            add(
                "a slot call with a fault",
                setup,
                vec![op, Op::ReadSlot(0, 0, 6)],
            );
        }
    }
    let half = Setup {
        plan: vec![2, 2, 2],
        ..blank(1)
    };
    add(
        "half of what fits",
        half,
        vec![
            Op::WriteSlot(0, 510, vec![1, 2, 3, 4]),
            Op::ReadSlot(0, 510, 4),
            Op::WriteSlot(0, 2, vec![]),
            Op::ReadSlot(0, 508, 8),
        ],
    );
}

fn under_a_pool(add: Add) {
    let first = Handle {
        slot: 0,
        generation: 1,
    };
    let create = |text: &str| Op::OpenWrite(0, text.as_bytes().to_vec());
    add(
        "slot calls under an open file",
        blank(2),
        vec![
            Op::Mount(2),
            create("a"),
            Op::Write(first, 0, (1..=9).collect()),
            Op::WriteSlot(0, 4, vec![70, 71]),
            Op::Read(first, 0, 12),
            Op::TruncateSlot(0, 5),
            Op::Read(first, 0, 12),
            Op::FileLen(first),
            sync(0, 0, 0, 99, b""),
            Op::Sync(first),
            Op::Mount(2),
        ],
    );
    add(
        "a slot call makes a double claim, which the next mount settles",
        blank(3),
        vec![
            Op::Mount(2),
            create("d/a"),
            Op::Sync(first),
            sync(1, 1, 4, 5, b"d//a"),
            sync(2, 1, 6, 5, b"d/a"),
            Op::Adopt(1),
            Op::Read(first, 0, 1),
            Op::Mount(3),
            Op::Metadata(b"d/a".to_vec()),
        ],
    );
}

/// What the original can't be asked: places past u64, and a free header with a path.
fn past_u64(add: Add) {
    let far = [u64::MAX, u64::MAX - 511, u64::MAX - 512];
    for at in far {
        for op in [
            Op::ReadSlot(0, at, 4),
            Op::ReadSlot(0, at, 0),
            Op::WriteSlot(0, at, vec![1]),
            Op::WriteSlot(0, at, vec![]),
            Op::TruncateSlot(0, at),
        ] {
            for plan in [vec![0, 9], vec![1], vec![2]] {
                let setup = Setup {
                    plan,
                    slot_size: 512,
                    lengths: vec![512],
                    ..blank(1)
                };
                add(
                    "a slot call at a place past u64",
                    setup,
                    vec![op.clone(), Op::FlushSlot(0)],
                );
            }
        }
    }
    for plan in [vec![], vec![1], vec![2], vec![0, 1]] {
        let setup = Setup { plan, ..blank(2) };
        add(
            "a free header keeps its path",
            setup,
            vec![
                sync(0, 0, 3, 7, b"d/a"),
                sync(1, 0, 3, 8, &not_text()[0]),
                sync(1, 1, 3, 8, b"d/a"),
                Op::Mount(2),
            ],
        );
    }
}

/// Scripts that end early: a slot call that is cut off, and codes that nobody has.
pub fn ending_early() -> Vec<Vec<u8>> {
    let start = Script {
        setup: Setup {
            slot_size: 512,
            ..blank(1)
        },
        ops: vec![sync(0, 1, 3, 7, b"a")],
    };
    let bytes = start.bytes();
    let mut found = vec![bytes.clone()];
    for op in each(0) {
        let mut longer = start.clone();
        longer.ops.push(op);
        let longer = longer.bytes();
        found.extend((bytes.len() + 1..longer.len()).map(|end| longer[..end].to_vec()));
    }
    for code in [17, 18, 19, 20, 21, 27, 28, 31] {
        let mut other = bytes.clone();
        other.push(code);
        other.extend([0; 40]);
        found.push(other);
    }
    found
}
