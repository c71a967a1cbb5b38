//! Counts of what was compared.

use std::collections::BTreeMap;
use std::fmt;

use script::{Answer, Op};

use crate::pair::Step;

/// Names of the operations by their codes; none where there is no such code.
pub const NAMES: [&str; 27] = [
    "",
    "mount",
    "adopt",
    "open_write",
    "open_read",
    "read",
    "write",
    "set_len",
    "file_len",
    "sync",
    "sync_dir",
    "rename",
    "remove",
    "create_dir_all",
    "read_dir",
    "exists",
    "metadata",
    "",
    "",
    "",
    "",
    "",
    "read_slot",
    "write_slot",
    "sync_slot",
    "flush_slot",
    "truncate_slot",
];

/// What a run compared.
#[derive(Clone, Debug, Default)]
pub struct Tally {
    /// Scripts run.
    pub scripts: u64,
    /// Scripts of which every operation was inside the domain.
    pub wholly_inside: u64,
    /// Scripts that hold a call of a slot.
    pub with_slot_calls: u64,
    /// Scripts that ended early, by the reason.
    pub ended: BTreeMap<&'static str, u64>,
    /// Operations, by code and number, that both machines did.
    pub inside: BTreeMap<(u8, u8), u64>,
    /// Operations, by code and number, that only 01 refuses.
    pub outside: BTreeMap<(u8, u8), u64>,
}

/// The count of one script while it runs.
pub struct OneScript<'a> {
    tally: &'a mut Tally,
    whole: bool,
    slot_calls: bool,
}

impl Tally {
    /// Starts the count of a script.
    pub fn script(&mut self) -> OneScript<'_> {
        OneScript {
            tally: self,
            whole: true,
            slot_calls: false,
        }
    }

    /// Operations compared, those that only 01 refuses too.
    pub fn operations(&self) -> u64 {
        self.inside.values().sum::<u64>() + self.outside.values().sum::<u64>()
    }

    /// Adds another count.
    pub fn add(&mut self, other: &Tally) {
        self.scripts += other.scripts;
        self.wholly_inside += other.wholly_inside;
        self.with_slot_calls += other.with_slot_calls;
        for (reason, count) in &other.ended {
            *self.ended.entry(reason).or_default() += count;
        }
        for (mine, theirs) in [
            (&mut self.inside, &other.inside),
            (&mut self.outside, &other.outside),
        ] {
            for (key, count) in theirs {
                *mine.entry(*key).or_default() += count;
            }
        }
    }
}

impl OneScript<'_> {
    /// Counts an operation.
    pub fn operation(&mut self, op: &Op, answer: &Answer, step: &Step) {
        let key = (op.code(), answer.number);
        self.slot_calls |= op.is_slot_call();
        match step {
            Step::Inside => *self.tally.inside.entry(key).or_default() += 1,
            Step::Outside => {
                self.whole = false;
                *self.tally.outside.entry(key).or_default() += 1;
            }
            Step::Ends(reason) => {
                self.whole = false;
                *self.tally.ended.entry(reason).or_default() += 1;
            }
        }
    }

    /// Counts the script.
    pub fn done(self) {
        self.tally.scripts += 1;
        self.tally.wholly_inside += u64::from(self.whole);
        self.tally.with_slot_calls += u64::from(self.slot_calls);
    }
}

impl fmt::Display for Tally {
    fn fmt(&self, f: &mut fmt::Formatter<'_>) -> fmt::Result {
        writeln!(
            f,
            "{} scripts, {} of them wholly inside the domain, {} with calls of slots; {} operations, whole tables compared after each",
            self.scripts,
            self.wholly_inside,
            self.with_slot_calls,
            self.operations()
        )?;
        for (reason, count) in &self.ended {
            writeln!(f, "  {count} scripts ended at {reason}")?;
        }
        for (title, counts) in [
            ("done by both", &self.inside),
            ("refused by 01 only", &self.outside),
        ] {
            writeln!(f, "  {title}, number: count for each call")?;
            for (code, name) in NAMES.iter().enumerate().skip(1) {
                let row: Vec<String> = counts
                    .iter()
                    .filter(|((found, _), _)| usize::from(*found) == code)
                    .map(|((_, number), count)| format!("{number}: {count}"))
                    .collect();
                if !row.is_empty() {
                    writeln!(f, "    {name:<15}{}", row.join(", "))?;
                }
            }
        }
        Ok(())
    }
}
