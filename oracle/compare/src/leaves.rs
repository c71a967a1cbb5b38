//! The library's leaf calls against their judges: std's UTF-8 and paths, a plain FNV-1a with its published vectors, and
//! the original's header functions. Every call is compared whole: its answer, and every byte of a lent buffer.

use std::collections::BTreeMap;
use std::ffi::OsStr;
use std::os::unix::ffi::OsStrExt;
use std::path::{Component, Path};

use original::Decoded;
use script::random::Rng;

use crate::library::{Answer, Call, Library, hex};

const NOT_TEXT: u8 = 3;
const LONG: u8 = 4;
const NOT_FOUND: u8 = 5;
const SMALL: u8 = 13;

/// Bytes at the edges of UTF-8's grammar.
const EDGES: [u8; 22] = [
    0x00, 0x7F, 0x80, 0x8F, 0x90, 0x9F, 0xA0, 0xBF, 0xC0, 0xC1, 0xC2, 0xDF, 0xE0, 0xEC, 0xED, 0xEE,
    0xEF, 0xF0, 0xF3, 0xF4, 0xF5, 0xFF,
];

/// A run of the leaf comparisons, or of a part of them.
struct Leaves<'a> {
    library: &'a mut Library,
    rng: Rng,
    /// Which part of how many is made.
    part: (u64, u64),
    /// The number of the comparison, made or not.
    number: u64,
    /// Inputs drawn at random for each call.
    random: u64,
    /// Words of this length and below are taken in pairs.
    pairs: usize,
    counts: Counts,
}

/// How many comparisons were made of each kind.
pub type Counts = BTreeMap<&'static str, u64>;

/// Compares everything: how often, or the first difference in words. `quick` draws fewer inputs at random; what is exhaustive
/// stays so.
pub fn compare(library: &mut Library, quick: bool, seed: u64) -> Result<Counts, String> {
    part(library, quick, seed, (0, 1))
}

/// The same for one part of several, each of which holds some comparisons of every kind; together they are all.
pub fn part(
    library: &mut Library,
    quick: bool,
    seed: u64,
    part: (u64, u64),
) -> Result<Counts, String> {
    let mut leaves = Leaves {
        library,
        rng: Rng::new(seed, 0),
        part,
        number: 0,
        random: if quick { 100_000 } else { 3_000_000 },
        pairs: if quick { 5 } else { 6 },
        counts: BTreeMap::new(),
    };
    leaves.checks()?;
    leaves.texts()?;
    leaves.words()?;
    leaves.random_paths()?;
    leaves.encodings()?;
    leaves.decodings()?;
    leaves.library.settle().map_err(|found| found.to_string())?;
    Ok(leaves.counts)
}

/// The check, written out plainly.
fn fnv(start: u32, bytes: &[u8]) -> u32 {
    let mut sum = start;
    for byte in bytes {
        sum ^= u32::from(*byte);
        sum = sum.wrapping_mul(16_777_619);
    }
    sum
}

fn host_path(bytes: &[u8]) -> &Path {
    Path::new(OsStr::from_bytes(bytes))
}

/// Components joined with one `/`, none after the root.
fn joined(path: &Path) -> Vec<u8> {
    let mut spelling: Vec<u8> = Vec::new();
    for component in path.components() {
        match component {
            Component::RootDir => spelling.push(b'/'),
            other => {
                if !spelling.is_empty() && spelling != b"/" {
                    spelling.push(b'/');
                }
                spelling.extend(other.as_os_str().as_bytes());
            }
        }
    }
    spelling
}

/// What a path call has to answer, given what it has to spell, or the number that it refuses with.
fn wanted_in(spelling: &Result<Vec<u8>, u8>, mut out: Vec<u8>) -> Answer {
    let number = match spelling {
        Err(number) => u64::from(*number) << 32,
        Ok(spelling) if spelling.len() > out.len() => u64::from(SMALL) << 32,
        Ok(spelling) => {
            out[..spelling.len()].copy_from_slice(spelling);
            spelling.len() as u64
        }
    };
    Answer { number, out }
}

impl Leaves<'_> {
    /// Whether the next comparison is one of this part. The number is mixed, so that a part has some of everything.
    fn taken(&mut self) -> bool {
        self.number += 1;
        let (part, of) = self.part;
        of == 1 || (self.number.wrapping_mul(0x9E37_79B9_7F4A_7C15) >> 32) % of == part
    }

    /// A buffer as a call is lent it.
    fn lent(&self, room: usize) -> Vec<u8> {
        vec![self.library.fill(); room]
    }

    /// Compares one call.
    fn compared(&mut self, kind: &'static str, call: &Call, wanted: Answer) -> Result<(), String> {
        *self.counts.entry(kind).or_default() += 1;
        self.library
            .expect(call, wanted)
            .map_err(|found| found.to_string())
    }

    /// The same for a call that is lent nothing.
    fn numbered(
        &mut self,
        kind: &'static str,
        call: &Call,
        wanted: impl Into<u64>,
    ) -> Result<(), String> {
        let wanted = Answer {
            number: wanted.into(),
            out: Vec::new(),
        };
        self.compared(kind, call, wanted)
    }

    fn checks(&mut self) -> Result<(), String> {
        let published: [(&[u8], u32); 6] = [
            (b"", 0x811c_9dc5),
            (b"a", 0xe40c_292c),
            (b"b", 0xe70c_2de5),
            (b"foo", 0xa9f3_7ed7),
            (b"foobar", 0xbf9c_f968),
            (b"chongo was here!\n", 0xd499_30d5),
        ];
        for (bytes, sum) in published {
            let start = 0x811c_9dc5;
            if fnv(start, bytes) != sum {
                return Err(format!(
                    "the judge itself misses the vector of {}",
                    hex(bytes)
                ));
            }
            let call = Call::Check { start, bytes };
            self.numbered("slot_check, published vectors", &call, sum)?;
        }
        for _ in 0..self.random {
            let most = if self.rng.one_in(16) { 600 } else { 40 };
            let length = self.rng.below(most);
            let bytes = self.rng.bytes(length);
            let start = self.rng.next() as u32;
            if self.taken() {
                let call = Call::Check {
                    start,
                    bytes: &bytes,
                };
                self.numbered("slot_check, random", &call, fnv(start, &bytes))?;
            }
        }
        Ok(())
    }

    fn text(&mut self, kind: &'static str, bytes: &[u8]) -> Result<(), String> {
        if !self.taken() {
            return Ok(());
        }
        let wanted = u8::from(std::str::from_utf8(bytes).is_ok());
        self.numbered(kind, &Call::Text { bytes }, wanted)
    }

    fn texts(&mut self) -> Result<(), String> {
        for length in 0..=3u32 {
            for number in 0..1u32 << (8 * length) {
                let bytes = number.to_le_bytes();
                self.text(
                    "text_is, all strings up to 3 bytes",
                    &bytes[..length as usize],
                )?;
            }
        }
        for length in [4, 5] {
            for mut number in 0..EDGES.len().pow(length) {
                let mut bytes = [0; 5];
                for byte in &mut bytes[..length as usize] {
                    *byte = EDGES[number % EDGES.len()];
                    number /= EDGES.len();
                }
                self.text(
                    "text_is, edge bytes, 4 and 5 long",
                    &bytes[..length as usize],
                )?;
            }
        }
        for length in (0..=140).chain([479, 480, 481, 511, 512, 1000]) {
            for at in 0..length {
                for bad in [0x80, 0xC2, 0xE2, 0xF0, 0xFF] {
                    let mut bytes = vec![b'x'; length];
                    bytes[at] = bad;
                    self.text("text_is, long ASCII with one other byte", &bytes)?;
                }
                for good in ["é", "語", "𝄞"] {
                    let mut bytes = vec![b'x'; length];
                    bytes.splice(at..at + 1, good.bytes());
                    self.text("text_is, long ASCII with one character", &bytes)?;
                    bytes.pop();
                    self.text("text_is, long ASCII with one character", &bytes)?;
                }
            }
            self.text("text_is, long ASCII", &vec![b'x'; length])?;
        }
        for _ in 0..self.random {
            let bytes = self.some_text(200);
            self.text("text_is, random", &bytes)?;
            let bytes = self.damaged(bytes);
            self.text("text_is, random", &bytes)?;
        }
        Ok(())
    }

    /// Text of random characters, ASCII and not.
    fn some_text(&mut self, most: usize) -> Vec<u8> {
        let length = self.rng.below(most + 1);
        let mut text = String::new();
        let plain = self.rng.one_in(3);
        while text.len() < length {
            let code = match self.rng.below(if plain { 1 } else { 5 }) {
                0 => self.rng.below(0x80),
                1 => self.rng.below(0x800),
                2 => self.rng.below(0x1_0000),
                3 => self.rng.pick(&[
                    0x7F, 0x80, 0x7FF, 0x800, 0xD7FF, 0xE000, 0xFFFF, 0x1_0000, 0x10_FFFF,
                ]),
                _ => self.rng.below(0x11_0000),
            };
            text.extend(char::from_u32(code as u32));
        }
        text.into_bytes()
    }

    /// The same with one thing wrong, mostly.
    fn damaged(&mut self, mut bytes: Vec<u8>) -> Vec<u8> {
        if bytes.is_empty() {
            return vec![0xFF];
        }
        let at = self.rng.below(bytes.len());
        match self.rng.below(4) {
            0 => {
                bytes.remove(at);
            }
            1 => bytes[at] ^= 1 << self.rng.below(8),
            2 => bytes.truncate(at),
            _ => bytes[at] = self.rng.pick(&EDGES),
        }
        bytes
    }

    fn same(&mut self, kind: &'static str, a: &[u8], b: &[u8]) -> Result<(), String> {
        if !self.taken() {
            return Ok(());
        }
        let both_text = std::str::from_utf8(a).is_ok() && std::str::from_utf8(b).is_ok();
        let wanted = if both_text {
            u8::from(host_path(a) == host_path(b))
        } else {
            NOT_TEXT
        };
        self.numbered(kind, &Call::Same { a, b }, wanted)
    }

    /// Normal spelling and parent of one path, in buffers of all these lengths.
    fn spelled(&mut self, kind: &'static str, path: &[u8], rooms: &[usize]) -> Result<(), String> {
        let text = std::str::from_utf8(path).is_ok();
        let normal = if text {
            Ok(joined(host_path(path)))
        } else {
            Err(NOT_TEXT)
        };
        let parent = if text {
            host_path(path).parent().map(joined).ok_or(NOT_FOUND)
        } else {
            Err(NOT_TEXT)
        };
        for (is_parent, spelling) in [(false, normal), (true, parent)] {
            let edge = spelling.as_ref().map_or(0, Vec::len);
            let close = edge.saturating_sub(2)..=edge + 2;
            for room in rooms.iter().copied().chain(close) {
                if !self.taken() {
                    continue;
                }
                let call = if is_parent {
                    Call::Parent { path, room }
                } else {
                    Call::Normal { path, room }
                };
                let wanted = wanted_in(&spelling, self.lent(room));
                self.compared(kind, &call, wanted)?;
            }
        }
        Ok(())
    }

    /// All short words over `a`, `b`, `.` and `/`.
    fn words(&mut self) -> Result<(), String> {
        let mut words: Vec<Vec<u8>> = vec![Vec::new()];
        let mut last = 0;
        for _ in 0..6 {
            let end = words.len();
            for at in last..end {
                for letter in *b"ab./" {
                    let mut word = words[at].clone();
                    word.push(letter);
                    words.push(word);
                }
            }
            last = end;
        }
        for word in &words {
            let rooms: Vec<usize> = (0..=word.len() + 2).collect();
            self.spelled(
                "path_normal and path_parent, all words up to 6, each room",
                word,
                &rooms,
            )?;
        }
        let short: Vec<&Vec<u8>> = words
            .iter()
            .filter(|word| word.len() <= self.pairs)
            .collect();
        for one in &short {
            for two in &short {
                self.same("path_same, all pairs of short words", one, two)?;
            }
        }
        Ok(())
    }

    /// A path out of names, dots and slashes.
    fn some_path(&mut self) -> Vec<u8> {
        let pieces = [
            "a", "b", "é", "語", ".", "..", "/", "//", "./", "/.", "x.y", "\0", "name",
        ];
        let most = if self.rng.one_in(20) { 300 } else { 12 };
        let count = self.rng.below(most);
        let mut path = Vec::new();
        for _ in 0..count {
            path.extend(self.rng.pick(&pieces).as_bytes());
            if self.rng.one_in(2) {
                path.push(b'/');
            }
        }
        path
    }

    /// Another spelling, now and then of another path.
    fn respelled(&mut self, path: &[u8]) -> Vec<u8> {
        let mut other = Vec::new();
        for byte in path {
            other.push(*byte);
            if *byte == b'/' && self.rng.one_in(4) {
                other.extend(self.rng.pick(&["/", "./", "/./"]).as_bytes());
            }
        }
        match self.rng.below(8) {
            0 => other.push(b'/'),
            1 => other.extend(b"/."),
            2 => {
                other.pop();
            }
            3 => other.insert(0, b'/'),
            _ => (),
        }
        other
    }

    fn random_paths(&mut self) -> Result<(), String> {
        for _ in 0..self.random / 4 {
            let one = self.some_path();
            let two = self.respelled(&one);
            self.same("path_same, random", &one, &two)?;
            let other = self.some_path();
            self.same("path_same, random", &one, &other)?;
            self.spelled("path_normal and path_parent, random", &one, &[0, 1000])?;
            let broken = self.damaged(one.clone());
            self.same("path_same, damaged text", &broken, &two)?;
            self.same("path_same, damaged text", &two, &broken)?;
            self.same("path_same, damaged text", &broken, &broken)?;
            self.spelled(
                "path_normal and path_parent, damaged text",
                &broken,
                &[0, 1, 1000],
            )?;
        }
        Ok(())
    }

    /// A path of just this many bytes.
    fn path_of(&mut self, length: usize) -> Vec<u8> {
        let mut path = Vec::new();
        while path.len() < length {
            let piece = self.rng.pick(&["a", "/", "é", "語", "𝄞", "name"]);
            if path.len() + piece.len() <= length {
                path.extend(piece.as_bytes());
            }
        }
        path
    }

    fn path_length(&mut self) -> usize {
        match self.rng.below(4) {
            0 => 476 + self.rng.below(9),
            1 => self.rng.below(4),
            2 => self.rng.below(700),
            _ => self.rng.below(40),
        }
    }

    fn encodings(&mut self) -> Result<(), String> {
        for _ in 0..self.random / 4 {
            let length = self.path_length();
            let mut path = self.path_of(length);
            if self.rng.one_in(8) {
                path = self.damaged(path);
            }
            let in_use = self.rng.pick(&[0, 1, 2, 255]);
            let (len, generation) = (self.some_number(), self.some_number());
            for room in [0, 1, 511, 512, 513, 700] {
                self.encoding(in_use, len, generation, &path, room)?;
            }
        }
        Ok(())
    }

    fn some_number(&mut self) -> u64 {
        match self.rng.below(5) {
            0 => self.rng.below(3) as u64,
            1 => u64::MAX - self.rng.below(3) as u64,
            2 => 1 << self.rng.below(64),
            _ => self.rng.next(),
        }
    }

    fn encoding(
        &mut self,
        in_use: u8,
        len: u64,
        generation: u64,
        path: &[u8],
        room: usize,
    ) -> Result<(), String> {
        if !self.taken() {
            return Ok(());
        }
        let mut out = self.lent(room);
        let number = match std::str::from_utf8(path) {
            Err(_) => NOT_TEXT,
            Ok(_) if path.len() > 480 => LONG,
            Ok(_) if room < 512 => SMALL,
            Ok(path) => {
                let block = judge_encode(&Decoded {
                    in_use: in_use != 0,
                    path: path.to_owned(),
                    len,
                    generation,
                });
                out[..512].copy_from_slice(&block);
                0
            }
        };
        let kind = match number {
            0 => "header_encode, blocks",
            _ => "header_encode, refusals",
        };
        let call = Call::Encode {
            in_use,
            len,
            generation,
            path,
            room,
        };
        let number = u64::from(number);
        self.compared(kind, &call, Answer { number, out })
    }

    fn decoding(&mut self, block: &[u8], room: usize) -> Result<(), String> {
        if !self.taken() {
            return Ok(());
        }
        let mut out = self.lent(room);
        let number = match (room < 32, judge_decode(block)) {
            (true, _) => SMALL,
            (false, None) => 1,
            (false, Some(header)) => {
                let fields = [
                    u64::from(header.in_use),
                    header.path.len() as u64,
                    header.len,
                    header.generation,
                ];
                for (place, field) in out.chunks_exact_mut(8).zip(fields) {
                    place.copy_from_slice(&field.to_le_bytes());
                }
                0
            }
        };
        let kind = match number {
            0 => "header_decode, headers",
            1 => "header_decode, absent",
            _ => "header_decode, refusals",
        };
        let number = u64::from(number);
        self.compared(kind, &Call::Decode { block, room }, Answer { number, out })
    }

    fn decodings(&mut self) -> Result<(), String> {
        // Every byte of a few blocks flipped in every bit, and every length of a block.
        for length in [0, 1, 30, 224, 479, 480] {
            let path = self.path_of(length);
            let block = judge_encode(&Decoded {
                in_use: true,
                path: String::from_utf8(path).expect("made of text"),
                len: self.some_number(),
                generation: self.some_number(),
            });
            for at in 0..512 {
                for bit in 0..8 {
                    let mut other = block.clone();
                    other[at] ^= 1 << bit;
                    self.decoding(&other, 32)?;
                    resum(&mut other);
                    self.decoding(&other, 40)?;
                }
            }
            for count in 0..=512 {
                self.decoding(&block[..count], 32)?;
            }
            let mut longer = block.clone();
            longer.extend([7; 100]);
            self.decoding(&longer, 33)?;
            for room in 0..=34 {
                self.decoding(&block, room)?;
                self.decoding(&block[..511], room)?;
            }
        }
        for _ in 0..self.random {
            let (block, room) = self.some_block();
            self.decoding(&block, room)?;
        }
        Ok(())
    }

    /// A block with something unusual about it, and room for the answer, mostly.
    fn some_block(&mut self) -> (Vec<u8>, usize) {
        let length = self.path_length().min(480);
        let path = self.path_of(length);
        let mut block = vec![0; 512];
        block[..4].copy_from_slice(&0x4F47_4552u32.to_le_bytes());
        block[4] = self.rng.pick(&[0, 1]);
        block[8..12].copy_from_slice(&(path.len() as u32).to_le_bytes());
        block[12..20].copy_from_slice(&self.some_number().to_le_bytes());
        block[20..28].copy_from_slice(&self.some_number().to_le_bytes());
        block[32..32 + path.len()].copy_from_slice(&path);
        let mut resummed = true;
        match self.rng.below(10) {
            0 => block[4..8].copy_from_slice(&(self.rng.next() as u32).to_le_bytes()),
            1 => {
                let field = self
                    .rng
                    .pick(&[0, 1, 479, 480, 481, 482, 1 << 16, 1 << 31, u32::MAX]);
                block[8..12].copy_from_slice(&field.to_le_bytes());
            }
            2 => block[511] = 1 + self.rng.below(255) as u8,
            3 => {
                let tail = self.rng.bytes(480 - path.len());
                block[32 + path.len()..].copy_from_slice(&tail);
            }
            4 if !path.is_empty() => block[32 + self.rng.below(path.len())] = self.rng.pick(&EDGES),
            5 if !path.is_empty() => block[32] = 0xFF,
            6 => resummed = false,
            7 => {
                block[self.rng.below(4)] ^= 1 << self.rng.below(8);
            }
            _ => (),
        }
        if resummed {
            resum(&mut block);
        }
        if self.rng.one_in(20) {
            let length = self.rng.pick(&[0, 1, 256, 510, 511, 512, 513, 600]);
            block.resize(length, 9);
        }
        let room = self.rng.pick(&[31, 32, 32, 32, 33, 64, 0]);
        (block, room)
    }
}

/// Puts the right check into a block, over as much path as it has.
fn resum(block: &mut [u8]) {
    let field = u32::from_le_bytes(block[8..12].try_into().expect("four bytes")) as usize;
    let sum = fnv(
        fnv(0x811c_9dc5, &block[..28]),
        &block[32..32 + field.min(480)],
    );
    block[28..32].copy_from_slice(&sum.to_le_bytes());
}

/// The original's block, or the model's if there is no original.
fn judge_encode(header: &Decoded) -> Vec<u8> {
    original::encode_header(header).unwrap_or_else(|| {
        model::header::encode(&model::header::Header {
            in_use: header.in_use,
            path: header.path.clone().into_bytes(),
            length: header.len,
            generation: header.generation,
        })
        .to_vec()
    })
}

/// What the original decodes, or the model if there is no original.
fn judge_decode(block: &[u8]) -> Option<Decoded> {
    original::decode_header(block).unwrap_or_else(|| {
        model::header::decode(block).map(|header| Decoded {
            in_use: header.in_use,
            path: String::from_utf8(header.path).expect("a decoded path is text"),
            len: header.length,
            generation: header.generation,
        })
    })
}
