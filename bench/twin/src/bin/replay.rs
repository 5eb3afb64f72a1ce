use std::io::{self, BufWriter};
use std::process::ExitCode;

use twin::replay;
use twin::status::status;

const BUFFER: usize = 64 * 1024;

fn main() -> ExitCode {
    let output = BufWriter::with_capacity(BUFFER, io::stdout().lock());
    status("replay", replay::run(io::stdin().lock(), output))
}
