//! Makes a script that shows something smaller, as long as it still shows it.

use crate::format::{Op, Script, SlotHeader};

/// The smallest script found that `shows` still holds of. `script` must show it.
pub fn shrink(script: &Script, mut shows: impl FnMut(&Script) -> bool) -> Script {
    let mut best = script.clone();
    loop {
        let before = best.clone();
        drop_ops(&mut best, &mut shows);
        simplify(&mut best, &mut shows);
        if best == before {
            return best;
        }
    }
}

/// Takes the change over if it still shows.
fn try_out(best: &mut Script, shows: &mut dyn FnMut(&Script) -> bool, changed: Script) -> bool {
    let better = changed != *best && changed.setup.is_whole() && shows(&changed);
    if better {
        *best = changed;
    }
    better
}

/// Leaves operations out: large pieces first, then one by one.
fn drop_ops(best: &mut Script, shows: &mut dyn FnMut(&Script) -> bool) {
    let mut piece = best.ops.len();
    while piece > 0 {
        let mut at = best.ops.len();
        while at > 0 {
            let from = at.saturating_sub(piece);
            let mut changed = best.clone();
            changed.ops.drain(from..at);
            try_out(best, shows, changed);
            at = from.min(best.ops.len());
        }
        piece /= 2;
    }
}

/// Every single change that makes a script simpler, tried in turn.
fn simplify(best: &mut Script, shows: &mut dyn FnMut(&Script) -> bool) {
    for patch in (0..best.setup.patches.len()).rev() {
        let mut changed = best.clone();
        changed.setup.patches.remove(patch);
        try_out(best, shows, changed);
    }
    while !best.setup.plan.is_empty() {
        let mut changed = best.clone();
        changed.setup.plan.pop();
        if !try_out(best, shows, changed) {
            break;
        }
    }
    for at in 0..best.setup.plan.len() {
        let mut changed = best.clone();
        changed.setup.plan[at] = 0;
        try_out(best, shows, changed);
    }
    drop_slots(best, shows);
    for size in [512, 1024] {
        if best.setup.slot_size > size {
            let changed = with_slots_of(best, size);
            try_out(best, shows, changed);
        }
    }
    for slot in 0..best.setup.lengths.len() {
        for length in [0, 512] {
            if best.setup.lengths[slot] > length {
                let mut changed = best.clone();
                changed.setup.lengths[slot] = length;
                try_out(best, shows, changed);
            }
        }
    }
    for at in 0..best.ops.len() {
        while simplify_op(best, shows, at) {}
    }
}

/// Takes over the first simpler form of one operation that still shows, if there is one. Each form is strictly
/// simpler, so this comes to an end.
fn simplify_op(best: &mut Script, shows: &mut dyn FnMut(&Script) -> bool, at: usize) -> bool {
    simpler(&best.ops[at]).into_iter().any(|op| {
        let mut changed = best.clone();
        changed.ops[at] = op;
        try_out(best, shows, changed)
    })
}

/// The same with smaller slots, each with what it held at its front.
fn with_slots_of(script: &Script, size: u32) -> Script {
    let mut changed = script.clone();
    let old = changed.setup.slot_size;
    changed.setup.slot_size = size;
    for length in &mut changed.setup.lengths {
        *length = (*length).min(size);
    }
    for (place, bytes) in &mut changed.setup.patches {
        let within = *place % old;
        bytes.truncate(size.saturating_sub(within) as usize);
        *place = *place / old * size + within.min(size);
    }
    changed.setup.patches.retain(|(_, bytes)| !bytes.is_empty());
    changed
}

/// Takes the device's last slots away, with what is patched there.
fn drop_slots(best: &mut Script, shows: &mut dyn FnMut(&Script) -> bool) {
    while best.setup.lengths.len() > 1 {
        let mut changed = best.clone();
        changed.setup.lengths.pop();
        let end = changed.setup.lengths.len() as u32 * changed.setup.slot_size;
        changed.setup.patches.retain(|(place, _)| *place < end);
        let slots = changed.setup.lengths.len() as u8;
        for op in &mut changed.ops {
            if let Op::Mount(count) = op {
                *count = (*count).min(slots);
            }
        }
        if !try_out(best, shows, changed) {
            return;
        }
    }
}

fn shorter(path: &[u8]) -> Vec<Vec<u8>> {
    let half = path.len() / 2;
    let mut found = vec![
        b"a".to_vec(),
        b"b".to_vec(),
        path[..half].to_vec(),
        path[half..].to_vec(),
    ];
    found.retain(|other| other.len() < path.len());
    for at in 0..path.len().min(12) {
        let mut less = path.to_vec();
        less.remove(at);
        found.push(less);
    }
    found
}

fn smaller(number: u64) -> Vec<u64> {
    let mut found = vec![0, 1, number / 2, number.saturating_sub(1)];
    found.retain(|other| *other < number);
    found
}

/// Simpler operations of the same kind.
fn simpler(op: &Op) -> Vec<Op> {
    match op {
        Op::Mount(n) => smaller(u64::from(*n))
            .iter()
            .map(|n| Op::Mount(*n as u8))
            .collect(),
        Op::Adopt(n) => smaller(u64::from(*n))
            .iter()
            .map(|n| Op::Adopt(*n as u8))
            .collect(),
        Op::OpenWrite(keep, path) => {
            let keeps = smaller(u64::from(*keep));
            let mut found: Vec<Op> = keeps
                .iter()
                .map(|keep| Op::OpenWrite(*keep as u8, path.clone()))
                .collect();
            found.extend(
                shorter(path)
                    .into_iter()
                    .map(|path| Op::OpenWrite(*keep, path)),
            );
            found
        }
        Op::OpenRead(path) => shorter(path).into_iter().map(Op::OpenRead).collect(),
        Op::Read(handle, at, length) => {
            let mut found: Vec<Op> = smaller(*at)
                .iter()
                .map(|at| Op::Read(*handle, *at, *length))
                .collect();
            let lengths = smaller(u64::from(*length));
            found.extend(
                lengths
                    .iter()
                    .map(|length| Op::Read(*handle, *at, *length as u16)),
            );
            found
        }
        Op::Write(handle, at, bytes) => {
            let mut found: Vec<Op> = smaller(*at)
                .iter()
                .map(|at| Op::Write(*handle, *at, bytes.clone()))
                .collect();
            let lengths = smaller(bytes.len() as u64);
            found.extend(
                lengths
                    .iter()
                    .map(|length| Op::Write(*handle, *at, bytes[..*length as usize].to_vec())),
            );
            found
        }
        Op::SetLen(handle, length) => smaller(*length)
            .iter()
            .map(|length| Op::SetLen(*handle, *length))
            .collect(),
        Op::FileLen(_) | Op::Sync(_) => Vec::new(),
        Op::SyncDir(path) => shorter(path).into_iter().map(Op::SyncDir).collect(),
        Op::Rename(from, to) => {
            let mut found: Vec<Op> = shorter(from)
                .into_iter()
                .map(|from| Op::Rename(from, to.clone()))
                .collect();
            found.extend(
                shorter(to)
                    .into_iter()
                    .map(|to| Op::Rename(from.clone(), to)),
            );
            found
        }
        Op::Remove(path) => shorter(path).into_iter().map(Op::Remove).collect(),
        Op::CreateDirAll(path) => shorter(path).into_iter().map(Op::CreateDirAll).collect(),
        Op::ReadDir(length, path) => {
            let mut found: Vec<Op> = smaller(u64::from(*length))
                .iter()
                .map(|length| Op::ReadDir(*length as u16, path.clone()))
                .collect();
            found.extend(
                shorter(path)
                    .into_iter()
                    .map(|path| Op::ReadDir(*length, path)),
            );
            found
        }
        Op::Exists(path) => shorter(path).into_iter().map(Op::Exists).collect(),
        Op::Metadata(path) => shorter(path).into_iter().map(Op::Metadata).collect(),
        _ => simpler_slot_call(op),
    }
}

/// The same for the calls of a slot.
fn simpler_slot_call(op: &Op) -> Vec<Op> {
    let slots = |slot: &u32| -> Vec<u32> {
        let found = smaller(u64::from(*slot));
        found.into_iter().map(|slot| slot as u32).collect()
    };
    let mut found = Vec::new();
    match op {
        Op::ReadSlot(slot, at, length) => {
            found.extend(
                slots(slot)
                    .into_iter()
                    .map(|slot| Op::ReadSlot(slot, *at, *length)),
            );
            found.extend(
                smaller(*at)
                    .into_iter()
                    .map(|at| Op::ReadSlot(*slot, at, *length)),
            );
            let lengths = smaller(u64::from(*length)).into_iter();
            found.extend(lengths.map(|length| Op::ReadSlot(*slot, *at, length as u16)));
        }
        Op::WriteSlot(slot, at, bytes) => {
            let with = |slot, at, end: usize| Op::WriteSlot(slot, at, bytes[..end].to_vec());
            found.extend(
                slots(slot)
                    .into_iter()
                    .map(|slot| with(slot, *at, bytes.len())),
            );
            found.extend(
                smaller(*at)
                    .into_iter()
                    .map(|at| with(*slot, at, bytes.len())),
            );
            let lengths = smaller(bytes.len() as u64).into_iter();
            found.extend(lengths.map(|length| with(*slot, *at, length as usize)));
        }
        Op::SyncSlot(slot, header) => {
            found.extend(
                slots(slot)
                    .into_iter()
                    .map(|slot| Op::SyncSlot(slot, header.clone())),
            );
            let simpler = simpler_header(header).into_iter();
            found.extend(simpler.map(|header| Op::SyncSlot(*slot, header)));
        }
        Op::FlushSlot(slot) => found.extend(slots(slot).into_iter().map(Op::FlushSlot)),
        Op::TruncateSlot(slot, length) => {
            found.extend(
                slots(slot)
                    .into_iter()
                    .map(|slot| Op::TruncateSlot(slot, *length)),
            );
            found.extend(
                smaller(*length)
                    .into_iter()
                    .map(|length| Op::TruncateSlot(*slot, length)),
            );
        }
        _ => (),
    }
    found
}

/// Headers with one thing simpler.
fn simpler_header(header: &SlotHeader) -> Vec<SlotHeader> {
    let mut found = Vec::new();
    for in_use in smaller(u64::from(header.in_use)) {
        let in_use = in_use as u8;
        found.push(SlotHeader {
            in_use,
            ..header.clone()
        });
    }
    for length in smaller(header.length) {
        found.push(SlotHeader {
            length,
            ..header.clone()
        });
    }
    for generation in smaller(header.generation) {
        found.push(SlotHeader {
            generation,
            ..header.clone()
        });
    }
    for path in shorter(&header.path) {
        found.push(SlotHeader {
            path,
            ..header.clone()
        });
    }
    found
}
