//! Answers and tables, and their bytes in an output.

use crate::format::{Op, write_run};

/// What fills a lent buffer before the call, so that a byte that the call touches is seen.
const FILL: u8 = 0xAA;

/// The answer to one operation: 0 or 01's number, then the results' bytes, of the same length for the same
/// operation whatever the number is.
#[derive(Clone, Debug, PartialEq, Eq)]
pub struct Answer {
    /// 0, or 01's number of the refusal.
    pub number: u8,
    /// The results.
    pub results: Vec<u8>,
}

impl Answer {
    /// Done, with no results.
    pub fn done() -> Answer {
        Answer::results(Vec::new())
    }

    /// Done, with these results.
    pub fn results(results: Vec<u8>) -> Answer {
        Answer { number: 0, results }
    }

    /// Done, with a handle, and the length if the operation gives one.
    pub fn opened(slot: u32, generation: u64, length: Option<u64>) -> Answer {
        let mut results = slot.to_le_bytes().to_vec();
        results.extend(generation.to_le_bytes());
        if let Some(length) = length {
            results.extend(length.to_le_bytes());
        }
        Answer::results(results)
    }

    /// Done, with a count and the whole lent buffer.
    pub fn filled(count: usize, buffer: &[u8]) -> Answer {
        let mut results = (count as u32).to_le_bytes().to_vec();
        results.extend(buffer);
        Answer::results(results)
    }

    /// Refused: all numbers zero and lent buffers as before.
    pub fn refused(op: &Op, number: u8) -> Answer {
        let results = match op {
            Op::OpenWrite(..) => vec![0; 20],
            Op::OpenRead(_) => vec![0; 12],
            Op::Read(_, _, length) | Op::ReadDir(length, _) | Op::ReadSlot(_, _, length) => {
                let mut results = vec![0; 4];
                results.extend(lent(*length));
                results
            }
            Op::FileLen(_) => vec![0; 8],
            Op::Exists(_) => vec![0; 1],
            Op::Metadata(_) => vec![0; 9],
            _ => Vec::new(),
        };
        Answer { number, results }
    }

    /// Puts the answer at the output's end.
    pub fn write(&self, out: &mut Vec<u8>) {
        out.push(self.number);
        out.extend(&self.results);
    }
}

/// A buffer of that length as a call is handed it.
pub fn lent(length: u16) -> Vec<u8> {
    vec![FILL; usize::from(length)]
}

/// A slot's row.
#[derive(Clone, Debug, PartialEq, Eq)]
pub struct Row {
    /// The path as given, if the slot is bound.
    pub path: Option<Vec<u8>>,
    /// Whether the free queue holds it.
    pub free: bool,
    /// Whether its header on the device is older than the row.
    pub dirty: bool,
    /// Its generation.
    pub generation: u64,
    /// Its length.
    pub length: u64,
}

/// The tables of a pool.
#[derive(Clone, Debug, PartialEq, Eq)]
pub struct PoolTables {
    /// The next generation.
    pub counter: u64,
    /// The rows of the slots held.
    pub rows: Vec<Row>,
    /// The free queue from its front.
    pub queue: Vec<u8>,
    /// The directories' normal spellings, in byte order.
    pub dirs: Vec<Vec<u8>>,
}

/// All tables, as they stand after an operation.
#[derive(Clone, Debug, PartialEq, Eq)]
pub struct Tables {
    /// The pool, if the record is one.
    pub pool: Option<PoolTables>,
    /// The plan's place.
    pub place: u32,
    /// The physical lengths.
    pub lengths: Vec<u32>,
    /// The whole device.
    pub device: Vec<u8>,
}

impl Tables {
    /// Puts the tables at the output's end.
    pub fn write(&self, out: &mut Vec<u8>) {
        out.push(u8::from(self.pool.is_some()));
        match &self.pool {
            Some(pool) => pool.write(out),
            None => out.extend([0; 8 + 1 + 1 + 2]),
        }
        out.extend(self.place.to_le_bytes());
        for length in &self.lengths {
            out.extend(length.to_le_bytes());
        }
        out.extend(&self.device);
    }

    /// In a few words, the first part in which two tables differ.
    pub fn difference(&self, other: &Tables) -> Option<String> {
        match (&self.pool, &other.pool) {
            (Some(one), Some(two)) => {
                if let Some(found) = one.difference(two) {
                    return Some(found);
                }
            }
            (None, None) => (),
            (one, two) => return Some(format!("pool: {} and {}", one.is_some(), two.is_some())),
        }
        if self.place != other.place {
            return Some(format!("plan's place: {} and {}", self.place, other.place));
        }
        if self.lengths != other.lengths {
            return Some(format!(
                "physical lengths: {:?} and {:?}",
                self.lengths, other.lengths
            ));
        }
        let at = self
            .device
            .iter()
            .zip(&other.device)
            .position(|(a, b)| a != b)?;
        Some(format!(
            "device byte {at}: {:#04x} and {:#04x}",
            self.device[at], other.device[at]
        ))
    }
}

impl PoolTables {
    fn write(&self, out: &mut Vec<u8>) {
        out.extend(self.counter.to_le_bytes());
        out.push(self.rows.len() as u8);
        for row in &self.rows {
            let marks =
                u8::from(row.path.is_some()) | u8::from(row.free) << 1 | u8::from(row.dirty) << 2;
            out.push(marks);
            out.extend(row.generation.to_le_bytes());
            out.extend(row.length.to_le_bytes());
            write_run(out, row.path.as_deref().unwrap_or_default());
        }
        out.push(self.queue.len() as u8);
        out.extend(&self.queue);
        out.extend((self.dirs.len() as u16).to_le_bytes());
        for dir in &self.dirs {
            write_run(out, dir);
        }
    }

    fn difference(&self, other: &PoolTables) -> Option<String> {
        if self.counter != other.counter {
            return Some(format!("counter: {} and {}", self.counter, other.counter));
        }
        if self.rows.len() != other.rows.len() {
            return Some(format!(
                "slots held: {} and {}",
                self.rows.len(),
                other.rows.len()
            ));
        }
        for (slot, (one, two)) in self.rows.iter().zip(&other.rows).enumerate() {
            if one != two {
                return Some(format!("row {slot}: {one:?} and {two:?}"));
            }
        }
        if self.queue != other.queue {
            return Some(format!("queue: {:?} and {:?}", self.queue, other.queue));
        }
        (self.dirs != other.dirs).then(|| {
            let say = |dirs: &[Vec<u8>]| -> Vec<String> {
                dirs.iter()
                    .map(|dir| dir.escape_ascii().to_string())
                    .collect()
            };
            format!(
                "directories: {:?} and {:?}",
                say(&self.dirs),
                say(&other.dirs)
            )
        })
    }
}
