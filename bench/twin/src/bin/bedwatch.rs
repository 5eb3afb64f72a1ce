use std::io::{self, BufReader, BufWriter};
use std::process::ExitCode;

use twin::bedwatch;
use twin::status::status;

const BUFFER: usize = 64 * 1024;

fn main() -> ExitCode {
    let input = BufReader::with_capacity(BUFFER, io::stdin().lock());
    let output = BufWriter::with_capacity(BUFFER, io::stdout().lock());
    status("bedwatch", bedwatch::run(input, output))
}
