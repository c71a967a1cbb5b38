//! Scripts: their bytes, their answers and tables, and what runs them.
//!
//! The format is that of docs/EXPORTS.md. Everything that runs a script, the original, the model and the
//! proved library, meets here: a [`Machine`] takes one operation after the other, a [`Runner`] takes the
//! whole script and gives the whole output.

mod answer;
mod format;
pub mod make;
pub mod random;
pub mod shrink;
mod words;

pub use answer::{Answer, PoolTables, Row, Tables, lent};
pub use format::{Handle, Op, Script, Setup, SlotHeader};

/// Something that runs a script operation by operation.
pub trait Machine {
    /// Does the operation and gives its answer.
    fn step(&mut self, op: &Op) -> Answer;
    /// The tables as they stand.
    fn tables(&self) -> Tables;
}

/// Something that runs a whole script, as the exported `pool_script` does: it gives the output's whole
/// length and writes what fits of it into `out`; 0, with `out` unchanged, if the setup isn't whole.
pub trait Runner {
    /// What it is called in reports.
    fn name(&self) -> &'static str;
    /// Runs the script.
    fn run(&mut self, script: &[u8], out: &mut [u8]) -> usize;
}

/// The output of a machine on a script: the answers in order, then the tables.
pub fn output(machine: &mut dyn Machine, ops: &[Op]) -> Vec<u8> {
    let mut out = Vec::new();
    for op in ops {
        machine.step(op).write(&mut out);
    }
    machine.tables().write(&mut out);
    out
}

/// Lays an output into a lent buffer as `pool_script` does, and gives its whole length.
pub fn deliver(output: &[u8], out: &mut [u8]) -> usize {
    let fits = output.len().min(out.len());
    out[..fits].copy_from_slice(&output[..fits]);
    output.len()
}
