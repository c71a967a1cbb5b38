//! What the comparing programs share: the original and the model side by side, the proved library as a runner,
//! and the arguments of a command.

pub mod arguments;
pub mod edges;
pub mod exhaust;
pub mod leaves;
pub mod library;
pub mod pair;
pub mod rows;
pub mod slot_edges;
pub mod tally;
