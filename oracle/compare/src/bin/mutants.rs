//! Tries the comparison of the original and the model out: each of a list of likely mistakes is made in a copy of the model,
//! and `random` has to find it.
//!
//! `mutants [--scripts N] [--only N]`, from the workspace's folder. The copy and its build lie under `target/mutants`. It
//! ends with 1 if a mistake is missed.

use std::fs;
use std::path::Path;
use std::process::Command;

use compare::arguments::{Arguments, stop};

/// A mistake: what it is, the file of the model, the text that is there once, and what stands there instead.
type Mistake = (&'static str, &'static str, &'static str, &'static str);

const MISTAKES: &[Mistake] = &[
    (
        "ties go to the higher slot",
        "pool.rs",
        "rows[holder].generation >= header.generation",
        "rows[holder].generation > header.generation",
    ),
    (
        "a failed open requeues in front",
        "pool.rs",
        "            self.queue.push(slot);\n            return Err(number);",
        "            self.queue.insert(0, slot);\n            return Err(number);",
    ),
    (
        "a new generation at truncation",
        "pool.rs",
        "                self.rows[slot].length = 0;\n",
        "                self.rows[slot].length = 0;\n                self.rows[slot].generation = self.spend();\n",
    ),
    (
        "files found by bytes",
        "pool.rs",
        "bound.is_some_and(|held| path::same(held, path))",
        "bound.is_some_and(|held| held == path)",
    ),
    (
        "a read that moves no bytes",
        "device.rs",
        "        if given > 0 {",
        "        if given > 0 && start < 512 {",
    ),
    (
        "the counter only reaches a header's generation",
        "pool.rs",
        "u128::from(header.generation) + 1",
        "u128::from(header.generation)",
    ),
    (
        "an empty path is a claim",
        "pool.rs",
        "if !header.in_use || header.path.is_empty()",
        "if !header.in_use",
    ),
    (
        "a release does not truncate",
        "pool.rs",
        "        device.truncate(slot, 0)?;\n        self.queue.push(slot);",
        "        self.queue.push(slot);",
    ),
    (
        "a failed rename leaves the row clean",
        "pool.rs",
        "                dirty: true,\n                ..before",
        "                dirty: false,\n                ..before",
    ),
    (
        "a read at the length asks the device",
        "pool.rs",
        "if at >= length",
        "if at > length",
    ),
    (
        "half of the bytes, then what fits",
        "device.rs",
        "        let mut stored = bytes.len().min(self.size - start);\n        if fault == 2 {\n            stored /= 2;\n        }",
        concat!(
            "        let mut stored = bytes.len();\n        if fault == 2 {\n            stored /= 2;\n",
            "        }\n        stored = stored.min(self.size - start);",
        ),
    ),
    (
        "a gap keeps its old bytes",
        "device.rs",
        "self.bytes[base + length..base + end].fill(0);",
        "let _ = base;",
    ),
    (
        "an empty write does not grow the file",
        "pool.rs",
        "        row.length = row.length.max(at + bytes.len() as u64);",
        "        if !bytes.is_empty() {\n            row.length = row.length.max(at + bytes.len() as u64);\n        }",
    ),
    (
        "a sync leaves the row dirty",
        "pool.rs",
        "            return device.flush();\n        }\n        self.put_header(device, slot)?;\n        self.rows[slot].dirty = false;",
        "            return device.flush();\n        }\n        self.put_header(device, slot)?;",
    ),
    (
        "a listing in the order of spellings",
        "pool.rs",
        "names.sort_by_key(|name| path::normal(name));",
        "names.sort();",
    ),
    (
        "a leading dot is dropped",
        "path.rs",
        "part == b\".\" && place == 0 && !rooted",
        "part == b\".\" && place == 0 && rooted",
    ),
    (
        "a rename takes the new spelling of an equal path",
        "pool.rs",
        "            return slot.map(|_| ());",
        "            let slot = slot?;\n            self.rows[slot].path = Some(to.to_vec());\n            return Ok(());",
    ),
    (
        "a release keeps the old generation",
        "pool.rs",
        "        let generation = self.spend();\n        self.rows[slot] = Row {\n            generation,\n            ..Row::default()",
        concat!(
            "        self.spend();\n        let generation = self.rows[slot].generation;\n",
            "        self.rows[slot] = Row {\n            generation,\n            ..Row::default()",
        ),
    ),
    (
        "losers are released in the order of slots",
        "pool.rs",
        "        for slot in survey.losers {",
        "        let mut losers = survey.losers;\n        losers.sort();\n        for slot in losers {",
    ),
    (
        "a header of 511 bytes is decoded",
        "header.rs",
        "let block: &[u8; LEN] = read.first_chunk()?;",
        concat!(
            "let mut whole = read.to_vec();\n    if whole.len() == 511 {\n        whole.push(0);\n    }\n",
            "    let block: &[u8; LEN] = whole.first_chunk()?;",
        ),
    ),
    (
        "other flag bits are minded",
        "header.rs",
        "in_use: block[4] % 2 == 1,",
        "in_use: block[4] == 1,",
    ),
    (
        "slot calls need a pool",
        "run.rs",
        "            return self.slot_call(op);",
        "            self.pool.as_ref().ok_or(NO_POOL)?;\n            return self.slot_call(op);",
    ),
    (
        "the first slot that is not there is a failed device call",
        "slots.rs",
        "    } else {\n        Err(STALE)",
        "    } else {\n        Err(if slot == device.lengths.len() { 10 } else { STALE })",
    ),
    (
        "6 before 4",
        "slots.rs",
        "    if header.path.len() > MAX_PATH {",
        "    if slot as usize >= device.lengths.len() {\n        return Err(STALE);\n    }\n    if header.path.len() > MAX_PATH {",
    ),
    (
        "a header cut short is flushed",
        "device.rs",
        "        self.write_from(slot, 0, block)?;\n        self.flush()",
        concat!(
            "        let written = self.write_from(slot, 0, block);\n        if written != Err(FAILED) {\n",
            "            self.flush()?;\n        }\n        written",
        ),
    ),
    (
        "sync_slot does not flush",
        "slots.rs",
        "    device.put_header(slot, &header::encode(header))",
        concat!(
            "    let place = device.place;\n    let said = device.put_header(slot, &header::encode(header));\n",
            "    device.place = device.place.min(place + 1);\n    said",
        ),
    ),
    (
        "a slot is read at its place in the slot",
        "slots.rs",
        "    device.read(slot, at, buffer)",
        "    device.read(slot, at.wrapping_sub(512), buffer)",
    ),
    (
        "a read of no bytes is no device call",
        "slots.rs",
        "    let slot = within(device, slot)?;\n    device.read(",
        "    let slot = within(device, slot)?;\n    if buffer.is_empty() {\n        return Ok(0);\n    }\n    device.read(",
    ),
    (
        "a slot write that does not fit stores nothing",
        "slots.rs",
        "    device.write(slot, at, bytes)",
        concat!(
            "    if at < 512 && at + bytes.len() as u64 > (device.size - 512) as u64 {\n        return Err(11);\n",
            "    }\n    device.write(slot, at, bytes)",
        ),
    ),
    (
        "only 1 means in use",
        "run.rs",
        "                    in_use: header.in_use != 0,",
        "                    in_use: header.in_use == 1,",
    ),
    (
        "a header with an empty path is free",
        "run.rs",
        "                    in_use: header.in_use != 0,",
        "                    in_use: header.in_use != 0 && !header.path.is_empty(),",
    ),
    (
        "truncate_slot counts from the slot's front",
        "slots.rs",
        "    device.truncate(slot, length)",
        "    device.truncate(slot, length.saturating_sub(512))",
    ),
    (
        "a flush of a slot needs no plan byte",
        "slots.rs",
        "    device.flush()",
        "    let place = device.place;\n    let said = device.flush();\n    device.place = place;\n    said",
    ),
    (
        "a failed mount keeps the old pool",
        "run.rs",
        "        self.pool = None;\n",
        "",
    ),
];

fn main() {
    let arguments = Arguments::read(&["scripts", "only"], &[]);
    if !original::PRESENT {
        stop("no regolith checkout: there is nothing to compare a mistake with");
    }
    let count = arguments.number("scripts", 40_000).to_string();
    let only = arguments.number("only", u64::MAX);
    let copy = Path::new("target/mutants/oracle");
    copy_workspace(copy);
    let mut missed = 0;
    for (number, mistake) in (0..).zip(MISTAKES) {
        if only != u64::MAX && only != number {
            continue;
        }
        let found = try_out(copy, mistake, &count);
        let word = found.as_deref().unwrap_or("MISSED");
        println!("{number:>2} {}: {word:.160}", mistake.0);
        missed += usize::from(found.is_none());
    }
    println!("{missed} missed");
    std::process::exit(i32::from(missed > 0));
}

/// Makes the mistake, builds, runs, and takes it back. Gives the line that shows the difference.
fn try_out(copy: &Path, mistake: &Mistake, count: &str) -> Option<String> {
    let (name, file, old, new) = mistake;
    let file = copy.join("model/src").join(file);
    let right = fs::read_to_string(&file).unwrap_or_else(|why| stop(&format!("{why}")));
    if right.matches(old).count() != 1 {
        stop(&format!("{name}: the text is not there just once"));
    }
    let put = |text: &str| {
        fs::write(&file, text).unwrap_or_else(|why| stop(&format!("{}: {why}", file.display())));
    };
    put(&right.replace(old, new));
    let found = ["inside", "wild"].into_iter().find_map(|flavour| {
        let run = Command::new("cargo")
            .args([
                "run",
                "--quiet",
                "--offline",
                "--release",
                "--bin",
                "random",
                "--",
            ])
            .args(["--flavour", flavour, "--count", count, "--seed", "7"])
            .current_dir(copy)
            .output()
            .unwrap_or_else(|why| stop(&format!("cargo: {why}")));
        let said = String::from_utf8_lossy(&run.stdout).into_owned();
        let mut lines = said.lines();
        match (
            run.status.code(),
            lines.find(|line| line.starts_with("DIFFERENCE")),
        ) {
            (Some(0), _) => None,
            (Some(1), Some(line)) => Some(line.to_owned()),
            _ => stop(&format!("{name}: {}", String::from_utf8_lossy(&run.stderr))),
        }
    });
    put(&right);
    found
}

/// Copies the workspace's own files, without what cargo builds.
fn copy_workspace(to: &Path) {
    let _ = fs::remove_dir_all(to);
    let parts = [
        "Cargo.toml",
        "standins",
        "script",
        "model",
        "original",
        "compare",
        "library_standin",
    ];
    for part in parts {
        copy(Path::new(part), &to.join(part));
    }
}

fn copy(from: &Path, to: &Path) {
    let fail = |why: std::io::Error| -> ! { stop(&format!("{}: {why}", from.display())) };
    if from.is_file() {
        if let Some(folder) = to.parent() {
            fs::create_dir_all(folder).unwrap_or_else(|why| fail(why));
        }
        fs::copy(from, to).unwrap_or_else(|why| fail(why));
        return;
    }
    for entry in fs::read_dir(from).unwrap_or_else(|why| fail(why)) {
        let entry = entry.unwrap_or_else(|why| fail(why));
        copy(&entry.path(), &to.join(entry.file_name()));
    }
}
