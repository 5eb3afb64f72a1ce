//! How the programs end.

use std::io;
use std::process::ExitCode;

/// Status 0, or 1 where the system refused something, which is told on standard error.
pub fn status(program: &str, done: io::Result<()>) -> ExitCode {
    match done {
        Ok(()) => ExitCode::SUCCESS,
        Err(error) => {
            eprintln!("{program}: {error}");
            ExitCode::FAILURE
        }
    }
}
