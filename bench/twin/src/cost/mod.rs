//! What the programs of two implementations cost, side by side.

pub mod calls;
pub mod lines;
pub mod memory;
pub mod pair;
pub mod plot;
pub mod runs;
pub mod sweep;
pub mod table;
