//! Two programs that are asked the same, in turn.

use std::io;
use std::path::{Path, PathBuf};
use std::time::{Duration, Instant};

use crate::trial::other::Conversation;

/// Where the executables of both are.
#[derive(Clone, Debug)]
pub struct Folders {
    pub other: PathBuf,
    pub twin: PathBuf,
}

/// What both took.
#[derive(Clone, Copy, Debug)]
pub struct Times {
    pub other: Duration,
    pub twin: Duration,
}

impl Times {
    pub fn best(self, also: Times) -> Times {
        Times {
            other: self.other.min(also.other),
            twin: self.twin.min(also.twin),
        }
    }

    pub fn longer(self) -> Duration {
        self.other.max(self.twin)
    }

    pub fn shorter(self) -> Duration {
        self.other.min(self.twin)
    }

    /// Nanoseconds for each of so many calls.
    pub fn each(self, calls: u64) -> Each {
        let nanos = |time: Duration| time.as_nanos() as f64 / calls as f64;
        Each {
            other: nanos(self.other),
            twin: nanos(self.twin),
        }
    }
}

/// Nanoseconds for one call.
#[derive(Clone, Copy, Debug)]
pub struct Each {
    pub other: f64,
    pub twin: f64,
}

impl Each {
    /// How much longer the other takes.
    pub fn ratio(self) -> f64 {
        self.other / self.twin
    }
}

/// What is said at once, how many lines answer it, and how many calls it makes.
#[derive(Clone, Debug)]
pub struct Work {
    pub bytes: Vec<u8>,
    pub answers: usize,
    pub calls: u64,
}

/// A sample is to take about so long.
const AIM: Duration = Duration::from_millis(50);

/// No series of samples takes much longer than this.
const PATIENCE: Duration = Duration::from_secs(3);

/// Both implementations' `replay`.
#[derive(Debug)]
pub struct Pair {
    other: Conversation,
    twin: Conversation,
}

impl Pair {
    pub fn start(folders: &Folders) -> io::Result<Pair> {
        let start = |folder: &Path| Conversation::start(&folder.join("replay"));
        Ok(Pair {
            other: start(&folders.other)?,
            twin: start(&folders.twin)?,
        })
    }

    /// Says the same to both, one after the other, and compares what they answer.
    pub fn time(&mut self, work: &Work) -> io::Result<Times> {
        let (other, other_heard) = time(&mut self.other, work)?;
        let (twin, twin_heard) = time(&mut self.twin, work)?;
        if other_heard != twin_heard {
            return Err(io::Error::other(format!(
                "answers differ: twin \"{}\", other \"{}\"",
                twin_heard.escape_ascii(),
                other_heard.escape_ascii()
            )));
        }
        Ok(Times { other, twin })
    }

    /// The best of several samples of work that can be made larger, at most up to some size.
    pub fn best(&mut self, rounds: u32, most: u32, work: impl Fn(u32) -> Work) -> io::Result<Each> {
        let mut size = 1;
        let mut best = loop {
            let times = self.time(&work(size))?;
            if times.shorter() >= AIM || times.longer() >= 4 * AIM || size == most {
                break times;
            }
            let short_of = AIM.as_secs_f64() / times.shorter().as_secs_f64();
            let factor = (1.1 * short_of).clamp(2.0, 32.0);
            size = ((f64::from(size) * factor) as u32).min(most);
        };
        let fitting = (PATIENCE.as_secs_f64() / best.longer().as_secs_f64()) as u32;
        let work = work(size);
        for _ in 1..rounds.min(fitting.max(1)) {
            best = best.best(self.time(&work)?);
        }
        Ok(best.each(work.calls))
    }

    /// Says nothing more.
    pub fn end(self) -> io::Result<()> {
        self.other.end()?;
        self.twin.end()?;
        Ok(())
    }
}

fn time(talk: &mut Conversation, work: &Work) -> io::Result<(Duration, Vec<u8>)> {
    let start = Instant::now();
    talk.say(&work.bytes)?;
    let mut heard = Vec::new();
    for _ in 0..work.answers {
        heard.extend(talk.hear()?);
    }
    Ok((start.elapsed(), heard))
}
