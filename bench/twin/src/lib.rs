//! An independent implementation of what `docs/RULES.md`, `docs/TRACES.md` and `docs/REPLAY.md` describe: NMEA lines,
//! keepers that count keys over a window, verdicts, and the programs `bedwatch`, `linewatch` and `replay`.

pub mod bands;
pub mod bedwatch;
pub mod cost;
pub mod digest;
pub mod keeper;
pub mod keys;
pub mod ladder;
pub mod latest;
pub mod layout;
pub mod lines;
pub mod linewatch;
pub mod replay;
pub mod requests;
pub mod ring;
pub mod sentences;
pub mod session;
pub mod settings;
pub mod spelling;
pub mod stage;
pub mod status;
pub mod tally;
pub mod trial;
pub mod verdicts;
pub mod windows;
