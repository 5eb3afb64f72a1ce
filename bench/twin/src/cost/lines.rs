//! How many lines a second the line programs read.

use std::fs::{self, File};
use std::io;
use std::path::{Path, PathBuf};
use std::process::{self, Command, Stdio};
use std::time::{Duration, Instant};
use std::{array, env};

use crate::cost::pair::{Folders, Times};
use crate::cost::table::{grouped, table};
use crate::trial::cases::Program;
use crate::trial::damage;
use crate::trial::other::answer;
use crate::trial::random::Random;

const LINES: u64 = 1_000_000;
const ROUNDS: u32 = 7;
const SEED: u64 = 7;

/// Longer lines would be measured by their bytes.
const LONGEST: usize = 100;

/// A file that is removed when it is no longer needed.
struct Temporary(PathBuf);

impl Temporary {
    fn holding(bytes: &[u8]) -> io::Result<Temporary> {
        let path = env::temp_dir().join(format!("twin-measure-{}", process::id()));
        fs::write(&path, bytes)?;
        Ok(Temporary(path))
    }
}

impl Drop for Temporary {
    fn drop(&mut self) {
        // A file that stays behind does no harm.
        let _ = fs::remove_file(&self.0);
    }
}

/// The table of lines per second.
pub fn measure(folders: &Folders) -> io::Result<String> {
    let mut rows = Vec::new();
    for program in [Program::Bedwatch, Program::Linewatch] {
        for (name, input) in inputs() {
            compare_answers(folders, program, &input)?;
            let file = Temporary::holding(&input)?;
            let times = best(folders, program, &file.0)?;
            let rate = |time: Duration| grouped((LINES as f64 / time.as_secs_f64()) as u64);
            rows.push(vec![
                program.name().to_owned(),
                name.to_owned(),
                rate(times.other),
                rate(times.twin),
                format!("{:.2}", times.each(LINES).ratio()),
            ]);
        }
    }
    let titles = [
        "program",
        "lines",
        "proved: lines/s",
        "twin: lines/s",
        "times, proved/twin",
    ];
    Ok(table(&titles, &rows))
}

/// A million lines that are all good, that all have a wrong checksum, and of which a half is damaged.
fn inputs() -> [(&'static str, Vec<u8>); 3] {
    let mut random = Random::of_case(SEED, 0);
    let [mut good, mut wrong, mut mixed]: [Vec<u8>; 3] = array::from_fn(|_| Vec::new());
    for _ in 0..LINES {
        let line = damage::depth_sentence(&mut random);
        good.extend(&line);
        good.extend(b"\r\n");
        let digit = line.len() - 1;
        wrong.extend(&line[..digit]);
        wrong.push(if line[digit] == b'0' { b'1' } else { b'0' });
        wrong.extend(b"\r\n");
        let line = damage::perhaps_damaged(line, &mut random);
        mixed.extend(&line[..line.len().min(LONGEST)]);
        mixed.extend(b"\r\n");
    }
    [
        ("all good", good),
        ("all of wrong checksum", wrong),
        ("a mixture", mixed),
    ]
}

/// Speed says nothing where the answers are not the same.
fn compare_answers(folders: &Folders, program: Program, input: &[u8]) -> io::Result<()> {
    let run = |folder: &Path| answer(&folder.join(program.name()), input);
    if run(&folders.other)?.bytes != run(&folders.twin)?.bytes {
        return Err(io::Error::other(format!(
            "answers of {} differ",
            program.name()
        )));
    }
    Ok(())
}

/// The best of several runs, in turn.
fn best(folders: &Folders, program: Program, input: &Path) -> io::Result<Times> {
    let both = || -> io::Result<Times> {
        Ok(Times {
            other: time(&folders.other.join(program.name()), input)?,
            twin: time(&folders.twin.join(program.name()), input)?,
        })
    };
    let mut best = both()?;
    for _ in 1..ROUNDS {
        best = best.best(both()?);
    }
    Ok(best)
}

fn time(program: &Path, input: &Path) -> io::Result<Duration> {
    let mut command = Command::new(program);
    command.stdin(File::open(input)?).stdout(Stdio::null());
    let start = Instant::now();
    let status = command.status()?;
    let time = start.elapsed();
    if !status.success() {
        return Err(io::Error::other(format!(
            "{} ended with {status}",
            program.display()
        )));
    }
    Ok(time)
}
