//! Measures another implementation's `bedwatch`, `linewatch` and `replay` beside this package's.

use std::env;
use std::fs;
use std::io;
use std::path::{Path, PathBuf};
use std::process::ExitCode;

use twin::cost::pair::Folders;
use twin::cost::plot::plot;
use twin::cost::{calls, lines, memory, runs, sweep};

const USAGE: &str = "usage: measure FOLDER OUT_FOLDER";

const LINES: &str = "## Lines per second\n\nA million lines from a file, output to nowhere; the best of 7 runs each, in turn.\n\n";

const CALLS: &str = "## Nanoseconds per call\n\nSounding keys, through `replay`. Each cell is `proved / twin (proved/twin)`; \
    the best of up to 5 samples, in turn. A window has 2^K - 1 keys, or 65,535 where filling more takes too long. *put, \
    filling* is a put of a window that is filled and emptied again and again, with the drop of its key, or the only \
    filling where that is long; *put, sliding* is a put and a drop; *count* draws its key among those that come; *list* is at the \
    least threshold, N / 2^a rounded up, and skipped where one would take more than about 5 seconds; *verdict* is on class 6.\n\n";

const RUNS: &str = "## Lists of keys that come in runs\n\nAs *list* above, where each key comes 64 times in a row.\n\n";

const MEMORY: &str = "## Memory\n\nSounding keys; 8 bytes a row, and 8 a head.\n\n";

/// The executables beside this one.
fn own_folder() -> io::Result<PathBuf> {
    let own = env::current_exe()?;
    let folder = own.parent().map(Path::to_owned);
    folder.ok_or_else(|| io::Error::other("no folder"))
}

/// Tells on standard error how far it is.
fn tell(row: &[String]) {
    eprintln!("{}", row.join(" | "));
}

fn measure(other: PathBuf, out: &Path) -> io::Result<()> {
    let folders = Folders {
        other,
        twin: own_folder()?,
    };
    fs::create_dir_all(out)?;
    let parts: [(&str, &dyn Fn() -> io::Result<String>); 4] = [
        (LINES, &|| lines::measure(&folders)),
        (CALLS, &|| calls::measure(&folders, tell)),
        (RUNS, &|| runs::measure(&folders, tell)),
        (MEMORY, &|| Ok(memory::measure())),
    ];
    let mut all = String::new();
    for (title, part) in parts {
        let text = format!("{title}{}\n", part()?);
        print!("{text}");
        all += &text;
        fs::write(out.join("table.md"), &all)?;
    }
    let ladder = sweep::points(&folders, true)?;
    let ring = sweep::points(&folders, false)?;
    fs::write(out.join("cost.svg"), plot(&ladder, &ring))
}

fn main() -> ExitCode {
    let arguments: Vec<PathBuf> = env::args_os().skip(1).map(PathBuf::from).collect();
    let [other, out] = &arguments[..] else {
        eprintln!("{USAGE}");
        return ExitCode::from(2);
    };
    twin::status::status("measure", measure(other.clone(), out))
}
