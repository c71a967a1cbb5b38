//! The original and the model side by side: each operation is done by both, and answers and whole tables are
//! compared after every one.

use std::panic::{AssertUnwindSafe, catch_unwind};

use model::Model;
use original::Original;
use script::{Machine, Op, Runner, Script, Setup};

use crate::library::{Difference, Library, hex};
use crate::tally::Tally;

/// What came of one operation.
pub enum Step {
    /// Both did it and agree.
    Inside,
    /// 01 refuses it and the original has no such refusal; the tables agree on what is left behind.
    Outside,
    /// The original can't be asked, and could not go on as 01 does: the script ends here.
    Ends(&'static str),
}

/// The two machines.
pub struct Pair {
    model: Model,
    original: Original,
}

/// Places and lengths from here on wrap around when the header's 512 bytes are added.
const PAST: u64 = u64::MAX - 511;

/// Whether the original would add past u64 before it asks the device. 01's domain ends far below.
fn passes_u64(op: &Op) -> bool {
    match op {
        Op::Read(_, at, _) | Op::Write(_, at, _) | Op::SetLen(_, at) => *at >= PAST,
        Op::ReadSlot(_, at, _) | Op::WriteSlot(_, at, _) | Op::TruncateSlot(_, at) => *at >= PAST,
        _ => false,
    }
}

/// Whether a header is free and has a path: the original's row of a free slot has none.
fn free_with_path(op: &Op) -> bool {
    matches!(op, Op::SyncSlot(_, header) if header.in_use == 0 && !header.path.is_empty())
}

/// Whether the original has no such refusal.
pub fn only_in_01(op: &Op, number: u8) -> bool {
    match number {
        // A call of a slot has no other of these: given one, it differs.
        2 if op.is_slot_call() => true,
        3 | 4 if matches!(op, Op::SyncSlot(..)) => true,
        _ if op.is_slot_call() => false,
        1 | 2 | 3 | 8 | 9 | 12 | 13 => true,
        4 => matches!(op, Op::CreateDirAll(_)),
        _ => false,
    }
}

impl Pair {
    /// Both over the same device; `None` without the original.
    pub fn start(setup: &Setup) -> Option<Pair> {
        Some(Pair {
            model: Model::start(setup),
            original: Original::start(setup)?,
        })
    }

    /// Does one operation on both. Gives the model's answer with it, or in words what differs.
    pub fn step(&mut self, op: &Op) -> Result<(Step, script::Answer), String> {
        let several = match op {
            Op::SyncDir(path) => self.model.dirty_under(path) > 1,
            _ => false,
        };
        let wanted = self.model.step(op);
        if passes_u64(op) {
            return Ok((Step::Ends("a place past u64"), wanted));
        }
        if free_with_path(op) && matches!(wanted.number, 0 | 10 | 11) {
            return Ok((Step::Ends("a free header with a path"), wanted));
        }
        if several && wanted.number != 0 {
            return Ok((Step::Ends("a failing sync_dir over several files"), wanted));
        }
        let outside = only_in_01(op, wanted.number);
        let given = self.original.step(op, outside.then_some(wanted.number));
        if given != wanted {
            return Err(format!(
                "{op}: the original answers {} {:02x?}, the model {} {:02x?}",
                given.number, given.results, wanted.number, wanted.results
            ));
        }
        if let Some(found) = self.original.tables().difference(&self.model.tables()) {
            return Err(format!("after {op}: original and model: {found}"));
        }
        if let Some(found) = self.original.broken() {
            return Err(format!("after {op}: the original itself: {found}"));
        }
        Ok((if outside { Step::Outside } else { Step::Inside }, wanted))
    }

    /// The original's tables.
    pub fn tables(&self) -> script::Tables {
        self.original.tables()
    }
}

/// The original's output on a whole script, with the model beside it; in words why there is none. An empty output means that the
/// setup isn't whole.
pub fn original_output(bytes: &[u8]) -> Result<Vec<u8>, String> {
    let Some(script) = Script::parse(bytes) else {
        return Ok(Vec::new());
    };
    let mut pair = Pair::start(&script.setup).ok_or("there is no original")?;
    let mut output = Vec::new();
    for op in &script.ops {
        let (step, answer) = pair.step(op)?;
        if let Step::Ends(why) = step {
            return Err(format!("the original can't be asked: {why}"));
        }
        answer.write(&mut output);
    }
    pair.tables().write(&mut output);
    Ok(output)
}

/// The original as a runner of whole scripts. It panics where there is no output to give.
pub struct OriginalRunner;

impl Runner for OriginalRunner {
    fn name(&self) -> &'static str {
        "original"
    }

    fn run(&mut self, script: &[u8], out: &mut [u8]) -> usize {
        let output = original_output(script).unwrap_or_else(|why| panic!("{why}"));
        script::deliver(&output, out)
    }
}

/// Runs a whole script on both and adds to the tally; in words what differs. A panic is a difference.
pub fn compare(script: &Script, tally: &mut Tally) -> Result<(), String> {
    guarded(|| {
        let mut pair = Pair::start(&script.setup).ok_or("there is no original")?;
        let mut seen = tally.script();
        for op in &script.ops {
            let (step, answer) = pair.step(op)?;
            seen.operation(op, &answer, &step);
            if matches!(step, Step::Ends(_)) {
                break;
            }
        }
        seen.done();
        Ok(())
    })
}

/// Does something that may panic, and gives the panic as a difference.
pub fn guarded<T>(work: impl FnOnce() -> Result<T, String>) -> Result<T, String> {
    catch_unwind(AssertUnwindSafe(work)).unwrap_or_else(|panic| {
        let message = panic
            .downcast_ref::<String>()
            .map(String::as_str)
            .or_else(|| panic.downcast_ref::<&str>().copied())
            .unwrap_or("no message");
        Err(format!("panic: {message}"))
    })
}

/// Makes a script smaller on which the library and the model differ, prints it, and ends the program with 1.
pub fn library_differs(library: &mut Library, difference: &Difference) -> ! {
    println!("{} and model: {difference}", library.name());
    let bytes = difference.script().unwrap_or_default();
    let differs = |library: &mut Library, script: &[u8]| {
        let found = library.gives(script, &model::output(script)).err();
        found.map(|found| found.to_string())
    };
    match Script::parse(bytes).filter(|script| script.bytes() == bytes) {
        Some(script) => {
            let small = script::shrink::shrink(&script, |script| {
                differs(library, &script.bytes()).is_some()
            });
            let said = differs(library, &small.bytes()).unwrap_or(difference.to_string());
            finish(&small, &said)
        }
        None => {
            println!(
                "DIFFERENCE in a damaged script: {difference}\n{}",
                hex(bytes)
            );
            std::process::exit(1);
        }
    }
}

/// Prints a script on which two runners differ, in words and in hexadecimal, and ends the program with 1.
pub fn finish(small: &Script, difference: &str) -> ! {
    println!("DIFFERENCE: {difference}\n{small}");
    println!("script in hexadecimal: {}", hex(&small.bytes()));
    std::process::exit(1);
}
