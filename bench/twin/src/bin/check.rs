//! Compares another implementation's `bedwatch`, `linewatch` and `replay` with this package.

use std::env;
use std::path::{Path, PathBuf};
use std::process::ExitCode;
use std::sync::atomic::{AtomicU64, Ordering};
use std::sync::mpsc::{self, Sender};
use std::thread;

use twin::trial::cases::{Case, LARGE, case, large_case};
use twin::trial::compare::{Outcome, compare};

const USAGE: &str = "usage: check FOLDER [--cases N] [--seed S] [--case C]";

const DEFAULT_CASES: u64 = 1000;
const DEFAULT_SEED: u64 = 1;
/// Each keeps two processors busy: one by the other implementation, one by this.
const WORKERS: usize = 2;

struct Options {
    folder: PathBuf,
    cases: u64,
    seed: u64,
    /// Only this case.
    only: Option<u64>,
    /// Whether the number of cases was left as it is, so that the large cases run too.
    is_default: bool,
}

fn options() -> Option<Options> {
    let mut arguments = env::args().skip(1);
    let mut options = Options {
        folder: arguments.next()?.into(),
        cases: DEFAULT_CASES,
        seed: DEFAULT_SEED,
        only: None,
        is_default: true,
    };
    while let Some(name) = arguments.next() {
        let number = arguments.next()?.parse().ok()?;
        match name.as_str() {
            "--cases" => {
                options.cases = number;
                options.is_default = false;
            }
            "--seed" => options.seed = number,
            "--case" => options.only = Some(number),
            _ => return None,
        }
    }
    Some(options)
}

impl Options {
    /// The numbers of the cases. Those from the number of cases on are large; they go first, as they take longest.
    fn numbers(&self) -> Vec<u64> {
        if let Some(only) = self.only {
            return vec![only];
        }
        let large = if self.is_default { LARGE } else { 0 };
        let large = self.cases..self.cases + large;
        large.chain(0..self.cases).collect()
    }

    fn case(&self, number: u64) -> Option<Case> {
        match number.checked_sub(self.cases) {
            None => Some(case(self.seed, number)),
            Some(large) => large_case(self.seed, large),
        }
    }
}

/// Takes one case after the other until none is left.
fn work(options: &Options, numbers: &[u64], next: &AtomicU64, done: &Sender<Outcome>) {
    while let Some(number) = numbers.get(next.fetch_add(1, Ordering::Relaxed) as usize) {
        let Some(case) = options.case(*number) else {
            continue;
        };
        let outcome = outcome(&case, &options.folder);
        for told in &outcome.told {
            println!(
                "seed {} case {number} ({} of {}): {told}",
                options.seed,
                case.kind,
                case.program.name()
            );
        }
        if done.send(outcome).is_err() {
            return;
        }
    }
}

/// A program that cannot be run differs.
fn outcome(case: &Case, folder: &Path) -> Outcome {
    compare(case, folder).unwrap_or_else(|error| Outcome {
        compared: 0,
        differ: 1,
        told: vec![format!("could not be compared: {error}")],
    })
}

fn run(options: &Options) -> (u64, u64) {
    let numbers = options.numbers();
    let next = AtomicU64::new(0);
    let (done, outcomes) = mpsc::channel();
    thread::scope(|scope| {
        for _ in 0..WORKERS {
            let (done, numbers, next) = (done.clone(), &numbers, &next);
            scope.spawn(move || work(options, numbers, next, &done));
        }
        drop(done);
        outcomes.iter().fold((0, 0), |(compared, differ), outcome| {
            (compared + outcome.compared, differ + outcome.differ)
        })
    })
}

fn main() -> ExitCode {
    let Some(options) = options() else {
        eprintln!("{USAGE}");
        return ExitCode::from(2);
    };
    let (compared, differ) = run(&options);
    println!("{compared} compared, {differ} differ");
    ExitCode::from(u8::from(differ > 0))
}
