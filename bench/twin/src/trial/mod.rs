//! Trials of another implementation: inputs for its programs, and what they answer.

pub mod bursts;
pub mod cases;
pub mod compare;
pub mod damage;
pub mod edges;
pub mod other;
pub mod random;
pub mod script;
pub mod sources;
pub mod spoiled;
pub mod traces;
pub mod wander;
