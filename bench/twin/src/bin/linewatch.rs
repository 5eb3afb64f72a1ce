use std::io::{self, BufReader, BufWriter};
use std::process::ExitCode;

use twin::linewatch;
use twin::status::status;

const BUFFER: usize = 64 * 1024;

fn main() -> ExitCode {
    let input = BufReader::with_capacity(BUFFER, io::stdin().lock());
    let output = BufWriter::with_capacity(BUFFER, io::stdout().lock());
    status("linewatch", linewatch::run(input, output))
}
