//! Makes scripts at random: small pools, doubled and damaged headers, every spelling trick, all calls, places
//! around every edge, fault plans, and handles live, stale and invented; if wanted, calls of slots in between.
//!
//! A maker goes along with a machine: it draws one operation, is told the answer, and draws the next, so that
//! handles are mostly of use.

use crate::answer::Answer;
use crate::format::{Handle, Op, Script, Setup, SlotHeader};
use crate::random::Rng;

/// How far a script may go.
#[derive(Clone, Copy, Debug, PartialEq, Eq)]
pub enum Flavour {
    /// Meant to stay in 01's domain of equality, where the original has an answer.
    Inside,
    /// Everything that a script can say.
    Wild,
}

/// A header block with every field open to damage.
#[derive(Clone, Debug)]
pub struct Block {
    /// The first four bytes.
    pub magic: u32,
    /// Bit 0: in use.
    pub flags: u32,
    /// The length field; the path's own length if `None`.
    pub path_length: Option<u32>,
    /// The file's length.
    pub length: u64,
    /// The generation.
    pub generation: u64,
    /// What the check is off by.
    pub check_off_by: u32,
    /// The path's bytes, at most 480.
    pub path: Vec<u8>,
}

impl Block {
    /// A header in use.
    pub fn claim(path: &[u8], generation: u64, length: u64) -> Block {
        Block {
            magic: 0x4F47_4552,
            flags: 1,
            path_length: None,
            length,
            generation,
            check_off_by: 0,
            path: path.to_vec(),
        }
    }

    /// The 512 bytes. The check is over as much path as the length field says, if the block has it.
    pub fn bytes(&self) -> Vec<u8> {
        let path_length = self.path_length.unwrap_or(self.path.len() as u32);
        let mut block = vec![0; 512];
        block[0..4].copy_from_slice(&self.magic.to_le_bytes());
        block[4..8].copy_from_slice(&self.flags.to_le_bytes());
        block[8..12].copy_from_slice(&path_length.to_le_bytes());
        block[12..20].copy_from_slice(&self.length.to_le_bytes());
        block[20..28].copy_from_slice(&self.generation.to_le_bytes());
        block[32..32 + self.path.len()].copy_from_slice(&self.path);
        let end = 32 + (path_length as usize).min(480);
        let mut check: u32 = 2_166_136_261;
        for byte in block[..28].iter().chain(&block[32..end]) {
            check = (check ^ u32::from(*byte)).wrapping_mul(16_777_619);
        }
        block[28..32].copy_from_slice(&check.wrapping_add(self.check_off_by).to_le_bytes());
        block
    }
}

/// Draws a script, operation by operation.
pub struct Maker {
    rng: Rng,
    flavour: Flavour,
    setup: Setup,
    paths: Vec<Vec<u8>>,
    /// Handles that are or once were live, the newest last.
    handles: Vec<Handle>,
    /// Spellings that files were opened under.
    opened: Vec<Vec<u8>>,
    /// How many slots the pool holds, if there is one.
    held: Option<usize>,
    left: usize,
    first: bool,
    slot_calls: SlotCalls,
}

/// Whether a script has calls of slots between the pool's.
#[derive(Clone, Copy, Debug, PartialEq, Eq)]
enum SlotCalls {
    /// None are drawn.
    Without,
    /// There has to be one, and none was drawn yet.
    Wanted,
    /// Some were drawn.
    Drawn,
}

const NAMES: &[&str] = &[
    "a",
    "b",
    "c",
    "a/b",
    "a/b/c",
    "a/c",
    "/a",
    "/a/b",
    "/",
    "./a",
    ".",
    "..",
    "",
    "a.b",
    "d/u",
    "../a",
    "/..",
    "a/..",
    ".a",
    "...",
    "é",
    "d/é/語",
    "𝄞",
    "a\\b",
    "a b",
    "\0",
    "d",
    "d/e/f/g/h",
];

const NOT_TEXT: &[&[u8]] = &[
    b"\xff",
    b"a/\x80",
    b"\xc0\x80",
    b"\xe0\x80\x80",
    b"\xed\xa0\x80",
    b"\xf4\x90\x80\x80",
    b"\xf0\x8f\xbf\xbf",
    b"a\xc3",
    b"\xe2\x82",
];

impl Maker {
    /// A maker for script number `script` of a run.
    pub fn new(flavour: Flavour, seed: u64, script: u64) -> Maker {
        let mut rng = Rng::new(seed, script);
        let paths = draw_paths(&mut rng, flavour);
        let mut handles = Vec::new();
        let setup = draw_setup(&mut rng, flavour, &paths, &mut handles);
        let left = match rng.below(10) {
            0..=2 => 1 + rng.below(4),
            3..=7 => 4 + rng.below(16),
            _ => 10 + rng.below(50),
        };
        Maker {
            rng,
            flavour,
            setup,
            paths,
            handles,
            opened: Vec::new(),
            held: None,
            left,
            first: true,
            slot_calls: SlotCalls::Without,
        }
    }

    /// A maker that draws calls of slots between the pool's, at least one a script. The device and the paths are
    /// those of the script of the same number without them.
    pub fn with_slot_calls(flavour: Flavour, seed: u64, script: u64) -> Maker {
        Maker {
            slot_calls: SlotCalls::Wanted,
            ..Maker::new(flavour, seed, script)
        }
    }

    /// What the script starts with.
    pub fn setup(&self) -> &Setup {
        &self.setup
    }

    /// The next operation, if there is another.
    pub fn draw(&mut self) -> Option<Op> {
        let due = match self.slot_calls {
            SlotCalls::Without => false,
            SlotCalls::Wanted => self.left == 0 || self.rng.one_in(3),
            SlotCalls::Drawn => self.rng.one_in(3),
        };
        if due {
            self.slot_calls = SlotCalls::Drawn;
            return Some(self.slot_call());
        }
        self.left = self.left.checked_sub(1)?;
        let wild = self.flavour == Flavour::Wild;
        let mount_now = std::mem::take(&mut self.first) || self.held.is_none();
        if mount_now && !(wild && self.rng.one_in(20)) {
            return Some(self.mount());
        }
        let mut drawn = self.rng.below(100);
        if self.handles.is_empty() && (32..=67).contains(&drawn) && !self.rng.one_in(4) {
            // Nothing is open: an open is of more use than one more stale handle.
            drawn = 9;
        }
        Some(match drawn {
            0..=4 => self.mount(),
            5..=8 => self.adopt(),
            9..=25 => Op::OpenWrite(self.rng.pick(&[0, 0, 1, 255]), self.path()),
            26..=31 => Op::OpenRead(self.held_path()),
            32..=40 => {
                let length = self.buffer_length();
                Op::Read(self.handle(), self.place(), length)
            }
            41..=52 => {
                let length = self.data_length();
                let bytes = self.rng.bytes(length);
                Op::Write(self.handle(), self.place(), bytes)
            }
            53..=58 => Op::SetLen(self.handle(), self.place()),
            59..=60 => Op::FileLen(self.handle()),
            61..=67 => Op::Sync(self.handle()),
            68..=71 => Op::SyncDir(self.dir_path()),
            72..=82 => Op::Rename(self.held_path(), self.path()),
            83..=88 => Op::Remove(self.held_path()),
            89..=91 => self.create_dir_all(),
            92..=94 => {
                let length = if wild {
                    self.rng.pick(&[0, 3, 4, 5, 10, 20, 100, 1000])
                } else {
                    40_000
                };
                Op::ReadDir(length, self.dir_path())
            }
            95..=96 => Op::Exists(self.path()),
            _ => Op::Metadata(self.held_path()),
        })
    }

    /// Tells what an operation came to, so that handles, paths and slots are known.
    pub fn saw(&mut self, op: &Op, answer: &Answer) {
        match (op, answer.number) {
            (Op::OpenWrite(_, path) | Op::OpenRead(path), 0) => {
                let results = &answer.results;
                self.handles.push(Handle {
                    slot: u32::from_le_bytes(results[0..4].try_into().expect("four bytes")),
                    generation: u64::from_le_bytes(results[4..12].try_into().expect("eight bytes")),
                });
                self.opened.push(path.clone());
            }
            (Op::Rename(_, to), 0) => self.opened.push(to.clone()),
            // The next mount makes the handle a live one.
            (Op::SyncSlot(slot, header), 0) if header.in_use != 0 && self.rng.one_in(2) => {
                self.handles.push(Handle {
                    slot: *slot,
                    generation: header.generation,
                });
            }
            (Op::Mount(count), 0) => self.held = Some(usize::from(*count)),
            (Op::Mount(_), number) => {
                self.held = None;
                if number == 2 {
                    // A device of the wrong shape stays so.
                    self.left = self.left.min(3);
                }
            }
            (Op::Adopt(count), 0) => {
                self.held = self.held.map(|held| held + usize::from(*count));
            }
            (
                Op::Read(handle, ..)
                | Op::Write(handle, ..)
                | Op::SetLen(handle, _)
                | Op::FileLen(handle)
                | Op::Sync(handle),
                6,
            ) if !self.rng.one_in(4) => self.handles.retain(|other| other != handle),
            _ => (),
        }
    }

    fn mount(&mut self) -> Op {
        let slots = self
            .setup
            .lengths
            .len()
            .min(usize::from(self.setup.slot_rows));
        Op::Mount(match self.rng.below(10) {
            0..=5 => slots as u8,
            6..=8 => self.rng.below(slots + 1) as u8,
            _ if self.flavour == Flavour::Wild => self.rng.pick(&[0, slots as u8 + 1, 65, 255]),
            _ => slots as u8,
        })
    }

    fn adopt(&mut self) -> Op {
        let slots = self
            .setup
            .lengths
            .len()
            .min(usize::from(self.setup.slot_rows));
        let room = slots.saturating_sub(self.held.unwrap_or(0));
        let over = if self.flavour == Flavour::Wild { 2 } else { 0 };
        Op::Adopt(self.rng.below(room + over + 1) as u8)
    }

    fn create_dir_all(&mut self) -> Op {
        Op::CreateDirAll(if self.flavour == Flavour::Wild && self.rng.one_in(4) {
            let length = 478 + self.rng.below(5);
            let mut path = vec![b'y'; length];
            if self.rng.one_in(2) {
                path.extend(b"//");
            }
            path
        } else {
            let mut path = self.dir_path();
            if self.flavour == Flavour::Inside && path.len() > 480 {
                path = b"d".to_vec();
            }
            path
        })
    }

    fn slot_call(&mut self) -> Op {
        let slot = self.slot();
        match self.rng.below(12) {
            0..=2 => {
                let length = self.buffer_length();
                Op::ReadSlot(slot, self.place(), length)
            }
            3..=5 => {
                let length = self.data_length();
                let bytes = self.rng.bytes(length);
                Op::WriteSlot(slot, self.place(), bytes)
            }
            6..=8 => Op::SyncSlot(slot, self.slot_header()),
            9 => Op::FlushSlot(slot),
            _ => Op::TruncateSlot(slot, self.place()),
        }
    }

    /// A slot's number, mostly one that the device has.
    fn slot(&mut self) -> u32 {
        let slots = self.setup.lengths.len();
        match self.rng.below(20) {
            0 => u32::MAX,
            1 => slots as u32,
            2 => (slots + self.rng.below(3)) as u32,
            _ => self.rng.below(slots.max(1)) as u32,
        }
    }

    /// What a header is to say; inside the domain text of at most 480 bytes, and none for a free one.
    fn slot_header(&mut self) -> SlotHeader {
        let wild = self.flavour == Flavour::Wild;
        let in_use = self.rng.pick(&[0, 1, 1, 1, 2, 255]);
        let generation = draw_generation(&mut self.rng, wild);
        let length = draw_length(&mut self.rng, wild);
        let mut path = self.path();
        if self.rng.one_in(12) {
            path.clear();
        }
        if !wild && path.len() > 480 {
            path = b"d".to_vec();
        }
        if in_use == 0 && !(wild && self.rng.one_in(2)) {
            path.clear();
        }
        SlotHeader {
            in_use,
            length,
            generation,
            path,
        }
    }

    /// One of the script's paths, in some spelling.
    fn path(&mut self) -> Vec<u8> {
        if self.flavour == Flavour::Wild && self.rng.one_in(40) {
            return self.rng.pick(NOT_TEXT).to_vec();
        }
        let path = self.rng.pick(&self.paths);
        respell(&mut self.rng, path)
    }

    /// A path that was once opened, in some spelling, or any.
    fn held_path(&mut self) -> Vec<u8> {
        if self.opened.is_empty() || self.rng.one_in(3) {
            return self.path();
        }
        let near = self.opened.len() - 1 - self.rng.below(self.opened.len().min(4));
        let path = self.opened[near].clone();
        respell(&mut self.rng, path)
    }

    /// A path, or what lies above one.
    fn dir_path(&mut self) -> Vec<u8> {
        let path = self.held_path();
        if self.rng.one_in(4) {
            return path;
        }
        match path.iter().rposition(|byte| *byte == b'/') {
            Some(0) => b"/".to_vec(),
            Some(at) => path[..at].to_vec(),
            None => Vec::new(),
        }
    }

    fn handle(&mut self) -> Handle {
        let invented = self.rng.one_in(12) || self.handles.is_empty();
        if invented {
            let slots = self.setup.lengths.len();
            return Handle {
                slot: match self.rng.below(8) {
                    0 => u32::MAX,
                    1 => slots as u32,
                    _ => self.rng.below(slots + 2) as u32,
                },
                generation: match self.rng.below(8) {
                    0 => u64::MAX,
                    1 => 1 << 63,
                    _ => self.rng.below(12) as u64,
                },
            };
        }
        // The newest are the likeliest to be live.
        let count = self.handles.len();
        let near = count - 1 - self.rng.below(count.min(4));
        let any = self.rng.below(count);
        self.handles[if self.rng.one_in(4) { any } else { near }]
    }

    /// A place in a file, around every edge.
    fn place(&mut self) -> u64 {
        let capacity = u64::from(self.setup.slot_size).saturating_sub(512);
        match self.rng.below(16) {
            0..=4 => 0,
            5..=7 => self.rng.below(12) as u64,
            8 => self.rng.below(capacity as usize + 2) as u64,
            9 => capacity,
            10 => capacity.saturating_sub(1 + self.rng.below(3) as u64),
            11 => capacity + 1 + self.rng.below(3) as u64,
            12 => self.rng.pick(&[100, 256, 511, 512, 513]),
            13 => self.rng.pick(&[1 << 31, (1 << 32) - 1]),
            14 if self.flavour == Flavour::Wild => self.rng.pick(&[
                1 << 32,
                1 << 63,
                u64::MAX - 513,
                u64::MAX - 512,
                u64::MAX - 511,
                u64::MAX - 1,
                u64::MAX,
            ]),
            _ => self.rng.below(600) as u64,
        }
    }

    fn buffer_length(&mut self) -> u16 {
        match self.rng.below(8) {
            0 => 0,
            1 => 1,
            2..=4 => self.rng.below(16) as u16,
            5 => 512,
            6 => (self.setup.slot_size.min(4096)) as u16,
            _ => self.rng.below(700) as u16,
        }
    }

    fn data_length(&mut self) -> usize {
        let capacity = (self.setup.slot_size as usize)
            .saturating_sub(512)
            .min(4096);
        match self.rng.below(10) {
            0 => 0,
            1 => 1,
            2..=6 => self.rng.below(14),
            7 => capacity + self.rng.below(3),
            8 => capacity.saturating_sub(1),
            _ => self.rng.below(capacity + 2),
        }
    }
}

/// The few paths that a script is about.
fn draw_paths(rng: &mut Rng, flavour: Flavour) -> Vec<Vec<u8>> {
    let count = 2 + rng.below(5);
    let mut paths: Vec<Vec<u8>> = (0..count)
        .map(|_| rng.pick(NAMES).as_bytes().to_vec())
        .collect();
    if rng.one_in(6) {
        paths.push(long_path(rng));
    }
    if flavour == Flavour::Wild && rng.one_in(12) {
        // As many ancestors as a path can have.
        paths.push(b"/a".repeat(200 + rng.below(42)));
    }
    paths
}

/// A path around the longest: names, spellings and characters that end at 480.
fn long_path(rng: &mut Rng) -> Vec<u8> {
    let length = 477 + rng.below(6);
    let mut path = match rng.below(4) {
        0 => b"d/".to_vec(),
        1 => b"a".to_vec(),
        2 => b"/".to_vec(),
        _ => Vec::new(),
    };
    let fill: &[u8] = match rng.below(3) {
        0 => b"x",
        1 => "é".as_bytes(),
        _ => b"/",
    };
    while path.len() + fill.len() <= length {
        path.extend(fill);
    }
    path
}

/// Another spelling, mostly of the same path.
fn respell(rng: &mut Rng, path: Vec<u8>) -> Vec<u8> {
    if rng.below(10) < 5 {
        return path;
    }
    let mut spelled = Vec::new();
    for (at, byte) in path.iter().enumerate() {
        spelled.push(*byte);
        if *byte == b'/' {
            match rng.below(6) {
                0 => spelled.push(b'/'),
                1 => spelled.extend(b"./"),
                // At the front this leaves `/` alone and drops nothing.
                2 if at > 0 => spelled.extend(b"/./"),
                _ => (),
            }
        }
    }
    if !spelled.is_empty() {
        match rng.below(6) {
            0 => spelled.push(b'/'),
            1 => spelled.extend(b"/."),
            2 => spelled.extend(b"//"),
            _ => (),
        }
    }
    if rng.one_in(12) {
        // A leading `.` makes it another path, unless the path has one or is rooted.
        spelled.splice(0..0, *b"./");
    }
    spelled
}

fn draw_setup(
    rng: &mut Rng,
    flavour: Flavour,
    paths: &[Vec<u8>],
    handles: &mut Vec<Handle>,
) -> Setup {
    let wild = flavour == Flavour::Wild;
    let slot_size = match rng.below(20) {
        0..=3 => 512,
        4..=15 => 1024,
        16..=17 => 1536,
        18 => 4096,
        _ if wild => rng.pick(&[0, 1, 511, 513, 1000, 1025, 8192]),
        _ => 2048,
    };
    let full = rng.one_in(400) && slot_size <= 1024;
    let slots = match rng.below(12) {
        _ if full => 64,
        0 if wild => 0,
        0..=1 => 1,
        2..=5 => 2,
        6..=8 => 3,
        9..=10 => 4 + rng.below(3),
        _ => 4 + rng.below(5),
    };
    let (slot_rows, dir_rows) = if wild {
        draw_rows(rng, slots)
    } else {
        let more = usize::from(slots < 64 && rng.one_in(2));
        ((slots + more) as u8, rng.pick(&[64, 100, 256]))
    };
    let mut setup = Setup {
        slot_rows,
        dir_rows,
        slot_size,
        plan: draw_plan(rng),
        lengths: Vec::new(),
        patches: Vec::new(),
    };
    for slot in 0..slots {
        draw_slot(rng, flavour, paths, &mut setup, slot as u32, handles);
    }
    setup
}

fn draw_rows(rng: &mut Rng, slots: usize) -> (u8, u16) {
    let slot_rows = match rng.below(8) {
        0 => rng.below(slots + 1) as u8,
        1 => rng.pick(&[64, 65, 66]),
        _ => (slots + rng.below(3)) as u8,
    };
    let dir_rows = match rng.below(8) {
        0..=4 => rng.below(8) as u16,
        5 => rng.pick(&[255, 256, 257, 258]),
        _ => 16 + rng.below(32) as u16,
    };
    (slot_rows, dir_rows)
}

fn draw_plan(rng: &mut Rng) -> Vec<u8> {
    if rng.below(10) < 4 {
        return Vec::new();
    }
    let length = 1 + rng.below(40);
    let rare = rng.pick(&[4, 8, 20]);
    (0..length)
        .map(|_| {
            if rng.one_in(rare) {
                rng.pick(&[1, 1, 2, 2, 2, 3, 255])
            } else {
                0
            }
        })
        .collect()
}

fn draw_slot(
    rng: &mut Rng,
    flavour: Flavour,
    paths: &[Vec<u8>],
    setup: &mut Setup,
    slot: u32,
    handles: &mut Vec<Handle>,
) {
    let size = setup.slot_size;
    let base = slot * size;
    setup.lengths.push(match rng.below(12) {
        0..=1 => 0,
        2 => rng.pick(&[1, 255, 256, 511]).min(size),
        3..=5 => 512.min(size),
        6 => 513.min(size),
        7..=8 => size,
        9 if flavour == Flavour::Wild && rng.one_in(6) => size + rng.pick(&[1, 512, 1 << 31]),
        _ => size.min(512 + rng.below(512) as u32),
    });
    if size < 512 {
        return;
    }
    if rng.below(10) < 7 {
        let block = draw_block(rng, flavour, paths);
        let mut bytes = block.bytes();
        match rng.below(16) {
            // One byte flipped, anywhere.
            0 => {
                let at = rng.below(512);
                bytes[at] ^= 1 << rng.below(8);
            }
            // Bytes after the path, which nobody may mind.
            1 => bytes[511] = 7,
            _ => (),
        }
        handles.push(Handle {
            slot,
            generation: block.generation,
        });
        setup.patches.push((base, bytes));
    }
    if size > 512 && rng.one_in(2) {
        let count = 1 + rng.below(64.min(size as usize - 512));
        let bytes = rng.bytes(count);
        setup.patches.push((base + 512, bytes));
    }
}

fn draw_block(rng: &mut Rng, flavour: Flavour, paths: &[Vec<u8>]) -> Block {
    let wild = flavour == Flavour::Wild;
    let mut path = rng.pick(paths);
    path = respell(rng, path);
    if path.len() > 480 {
        path.truncate(rng.pick(&[479, 480]));
    }
    let generation = draw_generation(rng, wild);
    let length = draw_length(rng, wild);
    let mut block = Block::claim(&path, generation, length);
    match rng.below(24) {
        0..=2 => block.flags = 0,
        3 => block.path.clear(),
        4 => block.flags = rng.pick(&[0x8000_0001, 3, 0xFFFF_FFFE, 0xFFFF_FFFF]),
        5 => block.check_off_by = 1 + rng.below(9) as u32,
        6 => block.magic ^= 1,
        7 => block.path_length = Some(rng.pick(&[0, 480, 481, 512, 1 << 31, u32::MAX])),
        8 => block.path = rng.pick(NOT_TEXT).to_vec(),
        9 => {
            block.flags = 0;
            block.path.clear();
        }
        _ => (),
    }
    block
}

fn draw_generation(rng: &mut Rng, wild: bool) -> u64 {
    match rng.below(16) {
        0..=5 => rng.below(4) as u64,
        6..=11 => rng.below(12) as u64,
        12 => rng.pick(&[1 << 31, 1 << 32, 1 << 40]),
        13 => (1 << 62) - 1 - rng.below(3) as u64,
        14 if wild => (1 << 63) - 3 + rng.below(5) as u64,
        15 if wild && rng.one_in(3) => u64::MAX - rng.below(2) as u64,
        _ => 5,
    }
}

fn draw_length(rng: &mut Rng, wild: bool) -> u64 {
    match rng.below(12) {
        0..=2 => 0,
        3..=6 => rng.below(20) as u64,
        7 => 512,
        8 => rng.below(2000) as u64,
        9 => rng.pick(&[1 << 31, (1 << 32) - 1]),
        10 if wild => rng.pick(&[1 << 32, 1 << 63, u64::MAX - 511, u64::MAX]),
        _ => rng.below(600) as u64,
    }
}

/// A whole script, made with the machine that `start` gives going along.
pub fn whole<M: crate::Machine>(maker: &mut Maker, start: impl FnOnce(&Setup) -> M) -> Script {
    let mut machine = start(maker.setup());
    let mut ops = Vec::new();
    while let Some(op) = maker.draw() {
        let answer = machine.step(&op);
        maker.saw(&op, &answer);
        ops.push(op);
    }
    Script {
        setup: maker.setup().clone(),
        ops,
    }
}
