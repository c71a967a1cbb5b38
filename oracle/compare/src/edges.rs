//! Scripts for the edges that document 01 names, both sides of each.

use script::make::Block;
use script::{Handle, Op, Script, Setup};

/// The slots' size in the scripts made here.
pub const SLOT_SIZE: u32 = 1024;

/// Blank slots, with row counts that fit.
pub fn blank(slots: usize) -> Setup {
    Setup {
        slot_rows: slots as u8,
        dir_rows: 8,
        slot_size: SLOT_SIZE,
        plan: Vec::new(),
        lengths: vec![0; slots],
        patches: Vec::new(),
    }
}

/// A device with these headers (path, generation, length) from slot 0 on, and `free` blank slots after them.
pub fn claims(headers: &[(&str, u64, u64)], free: usize) -> Setup {
    let mut setup = blank(headers.len() + free);
    for (slot, (path, generation, length)) in headers.iter().enumerate() {
        setup.lengths[slot] = 600;
        let block = Block::claim(path.as_bytes(), *generation, *length);
        let place = slot as u32 * SLOT_SIZE;
        setup.patches.push((place, block.bytes()));
        setup.patches.push((place + 512, (1..=88).collect()));
    }
    setup
}

fn path(text: &str) -> Vec<u8> {
    text.as_bytes().to_vec()
}

fn create(text: &str) -> Op {
    Op::OpenWrite(0, path(text))
}

fn handle(slot: u32, generation: u64) -> Handle {
    Handle { slot, generation }
}

fn rename(from: &str, to: &str) -> Op {
    Op::Rename(path(from), path(to))
}

/// All of them, by name.
pub fn all() -> Vec<(&'static str, Script)> {
    let mut found = Vec::new();
    let mut add = |name, setup, ops| found.push((name, Script { setup, ops }));
    paths(&mut add);
    generations(&mut add);
    headers(&mut add);
    files(&mut add);
    faults(&mut add);
    shapes(&mut add);
    found
}

type Add<'a> = &'a mut dyn FnMut(&'static str, Setup, Vec<Op>);

fn paths(add: Add) {
    let long = |length: usize| "x".repeat(length);
    add(
        "a path of 480 bytes opens, 481 gets 4",
        blank(2),
        vec![
            Op::Mount(2),
            create(&long(480)),
            create(&long(481)),
            Op::Sync(handle(0, 1)),
            Op::Mount(2),
        ],
    );
    add(
        "a spelling above 480 gets 4 even if the path is held, and the same at rename",
        blank(1),
        vec![
            Op::Mount(1),
            create("a"),
            Op::OpenWrite(1, path(&format!("a{}", "/".repeat(480)))),
            rename("a", &format!("a{}", "/".repeat(480))),
            rename("a", &format!("a{}", "/".repeat(479))),
            rename(&format!("a{}", "/".repeat(600)), "b"),
            Op::Exists(path(&format!("b{}", "/".repeat(600)))),
        ],
    );
    add(
        "a directory's normal spelling of 480 is held, 481 gets 4",
        blank(1),
        vec![
            Op::Mount(1),
            Op::CreateDirAll(path(&long(480))),
            Op::CreateDirAll(path(&long(481))),
            Op::CreateDirAll(path(&format!("{}//", long(479)))),
            Op::ReadDir(2, path(&long(480))),
        ],
    );
    add(
        "a renamed to a/ changes nothing; 5 if absent",
        blank(1),
        vec![
            Op::Mount(1),
            rename("a", "a/"),
            create("a"),
            rename("a", "a/"),
            rename("a//", "./a"),
        ],
    );
    add(
        "spellings",
        blank(4),
        vec![
            Op::Mount(4),
            create("a//b/"),
            create("a/b"),
            create("./a"),
            create("/./a"),
            create("/a"),
            create("a/.."),
            create(""),
            Op::Exists(path("a/./b/.")),
            Op::Metadata(path("a")),
            Op::CreateDirAll(vec![]),
            Op::ReadDir(64, vec![]),
            Op::ReadDir(64, path("a//")),
            Op::ReadDir(64, path("/")),
        ],
    );
    add(
        "the command program's example",
        blank(4),
        vec![
            Op::Mount(4),
            create("a/b"),
            create("a.b"),
            rename("a/b", "c"),
        ],
    );
    add(
        "a listing's order, kinds and room",
        blank(3),
        vec![
            Op::Mount(3),
            create("d/b/"),
            create("d/a.b"),
            create("d//a/c"),
            Op::CreateDirAll(path("d/é")),
            Op::ReadDir(0, path("d")),
            Op::ReadDir(26, path("d")),
            Op::ReadDir(27, path("d")),
            Op::ReadDir(28, path("d")),
            Op::ReadDir(29, path("d")),
            Op::ReadDir(30, path("d")),
            Op::ReadDir(9, path("nowhere")),
        ],
    );
    let mut not_text = vec![Op::Mount(1)];
    for bytes in [
        &b"\xff"[..],
        b"\xc0\x80",
        b"\xed\xa0\x80",
        b"\xf4\x90\x80\x80",
        b"a\xe2\x82",
    ] {
        let bytes = bytes.to_vec();
        not_text.extend([
            Op::OpenWrite(0, bytes.clone()),
            Op::OpenRead(bytes.clone()),
            Op::SyncDir(bytes.clone()),
            Op::Rename(bytes.clone(), path("a")),
            Op::Rename(path("a"), bytes.clone()),
            Op::Remove(bytes.clone()),
            Op::CreateDirAll(bytes.clone()),
            Op::ReadDir(4, bytes.clone()),
            Op::Exists(bytes.clone()),
            Op::Metadata(bytes),
        ]);
    }
    let mut long_and_bad = vec![b'x'; 481];
    long_and_bad.push(0xFF);
    not_text.push(Op::OpenWrite(0, long_and_bad));
    add("paths that aren't text", blank(1), not_text);
}

fn generations(add: Add) {
    let half: u64 = 1 << 63;
    add(
        "generation 2^63 - 1 mounts, and a new open then gets 9",
        claims(&[("a", half - 1, 3)], 1),
        vec![
            Op::Mount(2),
            create("b"),
            create("a"),
            rename("a", "b"),
            rename("a", "a/"),
            Op::Remove(path("a")),
            Op::Sync(handle(0, half - 1)),
        ],
    );
    add(
        "generation 2^63 gets 9 at mount",
        claims(&[("a", half, 3)], 1),
        vec![Op::Mount(2), create("b")],
    );
    add(
        "generation 2^64 - 1 gets 9 at mount",
        claims(&[("a", u64::MAX, 3)], 0),
        vec![Op::Mount(1)],
    );
    add(
        "a loser needs a generation too",
        claims(&[("a", half - 1, 3), ("a", 1, 3)], 0),
        vec![Op::Mount(2), Op::Mount(1), Op::Adopt(1)],
    );
    add(
        "the last generation goes to a loser",
        claims(&[("a", half - 2, 3), ("a", 1, 3)], 0),
        vec![Op::Mount(2), rename("a", "b")],
    );
    add(
        "a rename onto a file needs two",
        claims(&[("a", half - 2, 3), ("b", 1, 3)], 0),
        vec![Op::Mount(2), rename("a", "b"), rename("a", "c")],
    );
    add(
        "claims of one path with generations 5, 7, 6, 9, 9",
        claims(
            &[
                ("p", 5, 1),
                ("p/", 7, 2),
                ("p", 6, 3),
                ("p//", 9, 4),
                ("p", 9, 5),
            ],
            0,
        ),
        vec![Op::Mount(5), Op::Metadata(path("p")), Op::Mount(5)],
    );
    add(
        "a held file loses to an adopted slot, and its handle goes stale",
        claims(&[("d/p", 5, 9), ("d//p", 7, 2), ("d/p", 7, 3)], 0),
        vec![
            Op::Mount(1),
            Op::Read(handle(0, 5), 0, 4),
            Op::Adopt(2),
            Op::Read(handle(0, 5), 0, 4),
            Op::Read(handle(1, 7), 0, 4),
        ],
    );
}

fn headers(add: Add) {
    add(
        "in use with an empty path is free, and its generation counts",
        claims(&[("", 6, 9)], 0),
        vec![Op::Mount(1), create("a")],
    );
    for (name, length) in [
        ("a header of 511 bytes read is absent", 511),
        ("a header of 512 bytes read is there", 512),
    ] {
        let mut setup = claims(&[("a", 3, 0)], 0);
        setup.lengths[0] = length;
        add(
            name,
            setup,
            vec![Op::Mount(1), Op::OpenRead(path("a")), create("b")],
        );
    }
    let good = Block::claim(b"a/b", 4, 7);
    let damaged = [
        Block {
            magic: good.magic ^ 1,
            ..good.clone()
        },
        Block {
            path_length: Some(480),
            ..good.clone()
        },
        Block {
            path_length: Some(481),
            ..good.clone()
        },
        Block {
            path_length: Some(u32::MAX),
            ..good.clone()
        },
        Block {
            check_off_by: 1,
            ..good.clone()
        },
        Block {
            path: b"\xff".to_vec(),
            ..good.clone()
        },
        Block {
            flags: 0xFFFF_FFFF,
            ..good.clone()
        },
        Block {
            flags: 0xFFFF_FFFE,
            ..good.clone()
        },
        Block {
            length: u64::MAX,
            ..good.clone()
        },
        Block {
            path: vec![b'y'; 480],
            ..good
        },
    ];
    for block in damaged {
        let mut setup = claims(&[("z", 1, 1)], 0);
        setup.patches[0].1 = block.bytes();
        let ops = vec![
            Op::Mount(1),
            Op::FileLen(handle(0, 4)),
            Op::Read(handle(0, 4), 5, 8),
            create("n"),
            Op::Mount(1),
        ];
        add("a damaged or unusual header", setup, ops);
    }
    let mut tail = claims(&[("a", 3, 0)], 0);
    tail.patches.push((511, vec![9]));
    add(
        "bytes after the path are ignored",
        tail,
        vec![Op::Mount(1), Op::OpenRead(path("a"))],
    );
}

fn files(add: Add) {
    let first = handle(0, 1);
    let mut reads = vec![
        Op::Mount(1),
        create("a"),
        Op::Write(first, 0, (1..=9).collect()),
    ];
    for (at, length) in [
        (0, 9),
        (0, 10),
        (8, 4),
        (9, 4),
        (10, 0),
        (3, 0),
        (0, 0),
        (u64::MAX, 1),
    ] {
        reads.push(Op::Read(first, at, length));
    }
    add("reads around the length", blank(1), reads);
    let mut writes = vec![Op::Mount(1), create("a")];
    for (at, length) in [
        (511, 1),
        (512, 0),
        (512, 1),
        (513, 0),
        (510, 4),
        (0, 512),
        (0, 513),
        (u64::MAX, 1),
        (u64::MAX - 511, 0),
        (u64::MAX - 512, 0),
    ] {
        writes.push(Op::Write(first, at, vec![7; length]));
    }
    add("writes around the slot's end", blank(1), writes);
    let mut lengths = vec![Op::Mount(1), create("a"), Op::Write(first, 0, vec![5; 30])];
    for length in [10, 20, 512, 513, 0, 1, u64::MAX - 511, u64::MAX] {
        lengths.push(Op::SetLen(first, length));
        lengths.push(Op::FileLen(first));
    }
    lengths.push(Op::Read(first, 0, 40));
    add("lengths set", blank(1), lengths);
    let small = Setup {
        slot_size: 512,
        ..blank(1)
    };
    add(
        "a slot with no room for a byte",
        small,
        vec![
            Op::Mount(1),
            create("a"),
            Op::Write(first, 0, vec![]),
            Op::Write(first, 0, vec![1]),
            Op::Write(first, 1, vec![]),
            Op::SetLen(first, 1),
        ],
    );
    add(
        "handles: live after truncation, stale after rename and remove, invented",
        blank(2),
        vec![
            Op::Mount(2),
            create("a"),
            create("a"),
            Op::FileLen(first),
            rename("a", "b"),
            Op::FileLen(first),
            Op::Sync(first),
            Op::FileLen(handle(0, 2)),
            Op::Remove(path("b")),
            Op::SetLen(handle(0, 2), 0),
            Op::Write(handle(0, 3), 0, vec![1]),
            Op::Read(handle(1, 0), 0, 3),
            Op::Read(handle(2, 1), 0, 3),
            Op::Read(handle(u32::MAX, u64::MAX), 0, 3),
            Op::Remove(path("b")),
            Op::OpenRead(path("b")),
        ],
    );
    add(
        "a full pool, and a rename onto a file",
        blank(2),
        vec![
            Op::Mount(2),
            create("a"),
            create("d/b"),
            create("c"),
            rename("a", "d/b/"),
            create("c"),
            Op::SyncDir(vec![]),
            Op::SyncDir(path("d")),
            Op::Mount(2),
        ],
    );
}

fn faults(add: Add) {
    let first = handle(0, 1);
    let plan = |bytes: &[u8], slots| Setup {
        plan: bytes.to_vec(),
        ..blank(slots)
    };
    add(
        "half of a write that does not fit",
        plan(&[0, 0, 2], 1),
        vec![
            Op::Mount(1),
            create("a"),
            Op::Write(first, 510, vec![1, 2, 3, 4]),
        ],
    );
    add(
        "a failed truncate sends the slot to the queue's end",
        plan(&[0, 0, 1, 2], 2),
        vec![Op::Mount(2), create("a"), create("b"), create("c")],
    );
    add(
        "half of a header at mount is absent; a failed read gets 10",
        Setup {
            plan: vec![2, 0, 0, 1],
            ..claims(&[("a", 2, 1), ("b", 3, 1)], 0)
        },
        vec![
            Op::Mount(2),
            Op::Mount(2),
            Op::Exists(path("a")),
            Op::Mount(2),
        ],
    );
    for (name, bytes) in [
        ("a release stops at its header", [0, 0, 1, 0, 0]),
        ("a release stops at half of its header", [0, 0, 2, 0, 0]),
        ("a release stops at its flush", [0, 0, 0, 1, 0]),
        ("a release stops at its truncate", [0, 0, 0, 0, 2]),
    ] {
        add(
            name,
            plan(&bytes, 1),
            vec![
                Op::Mount(1),
                create("a"),
                Op::Remove(path("a")),
                create("b"),
                Op::Mount(1),
            ],
        );
    }
    for bytes in [
        [1, 0, 0, 0, 0],
        [2, 0, 0, 0, 0],
        [0, 1, 0, 0, 0],
        [0, 0, 1, 0, 0],
        [0, 0, 2, 0, 0],
        [0, 0, 0, 2, 0],
        [0, 0, 0, 0, 1],
    ] {
        let setup = Setup {
            plan: [&[0; 4], &bytes[..]].concat(),
            ..blank(2)
        };
        add(
            "a rename onto a file with a fault",
            setup,
            vec![
                Op::Mount(2),
                create("a"),
                create("b"),
                rename("a", "d/b/../b"),
                rename("a", "b"),
                Op::Mount(2),
            ],
        );
    }
    add(
        "a loser's release fails and is passed over",
        Setup {
            plan: vec![0, 0, 0, 1],
            ..claims(&[("a", 2, 1), ("a", 3, 1)], 1)
        },
        vec![Op::Mount(3), create("b"), create("c"), Op::Mount(3)],
    );
    add(
        "syncs with faults",
        plan(&[0, 0, 1, 2, 0, 1, 0, 0, 2, 0, 3, 255], 1),
        vec![
            Op::Mount(1),
            create("d/a"),
            Op::Sync(first),
            Op::Sync(first),
            Op::Sync(first),
            Op::SyncDir(path("d")),
            Op::Sync(first),
            Op::Sync(first),
            Op::Read(first, 0, 3),
        ],
    );
    add(
        "reads with faults",
        Setup {
            plan: vec![0, 2, 2, 1, 2],
            ..claims(&[("a", 1, 40)], 0)
        },
        vec![
            Op::Mount(1),
            Op::Read(first, 0, 9),
            Op::Read(first, 0, 1),
            Op::Read(first, 0, 9),
            Op::Read(first, 0, 0),
            Op::Read(first, 0, 9),
        ],
    );
}

fn shapes(add: Add) {
    let one = vec![Op::Mount(1), create("a"), Op::Exists(path("a"))];
    for size in [0, 1, 511, 513, 1000, 1025] {
        add(
            "a slot size of the wrong shape",
            Setup {
                slot_size: size,
                ..blank(1)
            },
            one.clone(),
        );
    }
    for size in [512, 1_048_576, 1_048_576 + 512, u32::MAX] {
        add(
            "no slots",
            Setup {
                slot_size: size,
                ..blank(0)
            },
            vec![
                Op::Mount(0),
                Op::Adopt(0),
                Op::Adopt(1),
                create("a"),
                Op::CreateDirAll(path("a/b")),
            ],
        );
    }
    for length in [SLOT_SIZE, SLOT_SIZE + 1, u32::MAX] {
        add(
            "a physical length",
            Setup {
                lengths: vec![length],
                ..blank(1)
            },
            one.clone(),
        );
    }
    for rows in [0, 1, 64, 65, 66] {
        add(
            "slot rows",
            Setup {
                slot_rows: rows,
                ..blank(1)
            },
            one.clone(),
        );
    }
    for rows in [0, 1, 256, 257, 258] {
        add(
            "directory rows",
            Setup {
                dir_rows: rows,
                ..blank(1)
            },
            vec![
                Op::Mount(1),
                create("/a"),
                create("/b/c"),
                rename("/a", "b/d"),
                Op::CreateDirAll(path("a")),
                Op::CreateDirAll(path("a/b")),
            ],
        );
    }
    add(
        "8 at mount and adopt: headers were read, a mount leaves no pool",
        Setup {
            dir_rows: 1,
            plan: vec![0; 9],
            ..claims(&[("d/a", 1, 1), ("/e", 1, 1)], 0)
        },
        vec![
            Op::Mount(2),
            Op::Exists(path("d")),
            Op::Mount(1),
            Op::Adopt(1),
            Op::Exists(path("d")),
        ],
    );
    add(
        "12 at mount and adopt",
        Setup {
            slot_rows: 2,
            ..blank(3)
        },
        vec![
            Op::Mount(3),
            Op::Exists(path("a")),
            Op::Mount(255),
            Op::Mount(1),
            Op::Adopt(2),
            Op::Adopt(1),
            Op::Adopt(1),
            Op::Adopt(0),
        ],
    );
    let before = [
        Op::Adopt(0),
        create("a"),
        Op::OpenRead(path("a")),
        Op::Read(handle(0, 1), 0, 2),
        Op::Write(handle(0, 1), 0, vec![1]),
        Op::SetLen(handle(0, 1), 0),
        Op::FileLen(handle(0, 1)),
        Op::Sync(handle(0, 1)),
        Op::SyncDir(vec![]),
        rename("a", "b"),
        Op::Remove(path("a")),
        Op::CreateDirAll(path("a")),
        Op::ReadDir(3, vec![]),
        Op::Exists(path("a")),
        Op::Metadata(path("a")),
        Op::OpenWrite(0, vec![0xFF]),
    ];
    add("every call before a mount", blank(1), before.to_vec());
    add("nothing done at all", blank(1), Vec::new());
    let many = (0..257).map(|n| Op::CreateDirAll(format!("{n:02x}").into_bytes()));
    add(
        "256 directories, and one more",
        Setup {
            dir_rows: 256,
            ..blank(1)
        },
        std::iter::once(Op::Mount(1)).chain(many).collect(),
    );
    let slots = (0..65).map(|n| create(&format!("{n:02x}")));
    add(
        "64 slots, and one file more",
        Setup {
            slot_size: 512,
            ..blank(64)
        },
        std::iter::once(Op::Mount(64)).chain(slots).collect(),
    );
}
