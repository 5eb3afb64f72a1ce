//! Compares what two programs answer, line by line.

use std::io;
use std::path::Path;
use std::thread;

use crate::requests::{LENGTH, Request};
use crate::trial::cases::{Case, Program};
use crate::trial::other::{Answer, Conversation, answer};

/// So many differences of a case are told.
const TOLD: usize = 3;

/// So many bytes of a line are told.
const SHOWN: usize = 160;

/// What the comparison of a case showed.
#[derive(Clone, Debug, Default)]
pub struct Outcome {
    pub compared: u64,
    pub differ: u64,
    /// The first differences.
    pub told: Vec<String>,
}

impl Outcome {
    fn difference(&mut self, told: impl FnOnce() -> String) {
        self.differ += 1;
        if self.told.len() < TOLD {
            self.told.push(told());
        }
    }
}

/// Runs both on a case.
pub fn compare(case: &Case, folder: &Path) -> io::Result<Outcome> {
    let program = folder.join(case.program.name());
    let (own, other) = thread::scope(|scope| {
        let own = scope.spawn(|| case.program.answer(&case.input));
        let other = if case.waits {
            converse(&program, &case.input)
        } else {
            answer(&program, &case.input)
        };
        (own.join(), other)
    });
    let own = own.map_err(|_| io::Error::other("the twin failed"))??;
    let other = other?;
    let mut outcome = compare_lines(case, &own, &other.bytes);
    if other.status.code() != Some(0) {
        outcome.difference(|| format!("the other ended with {}", other.status));
    }
    Ok(outcome)
}

/// Says each request in two pieces, and waits for its answer before the next.
fn converse(program: &Path, input: &[u8]) -> io::Result<Answer> {
    let mut talk = Conversation::start(program)?;
    let (header, requests) = input.split_at(input.len().min(4));
    talk.say(header)?;
    let mut heard = Vec::new();
    for (number, request) in requests.chunks(LENGTH).enumerate() {
        let (first, second) = request.split_at(number % request.len());
        talk.say(first)?;
        talk.say(second)?;
        if request.len() == LENGTH {
            heard.extend(talk.hear()?);
        }
    }
    let rest = talk.end()?;
    heard.extend(rest.bytes);
    Ok(Answer {
        bytes: heard,
        status: rest.status,
    })
}

fn compare_lines(case: &Case, own: &[u8], other: &[u8]) -> Outcome {
    let mut outcome = Outcome::default();
    let mut own = own.split_inclusive(|byte| *byte == b'\n');
    let mut other = other.split_inclusive(|byte| *byte == b'\n');
    for number in 0.. {
        let (ours, theirs) = (own.next(), other.next());
        if ours.is_none() && theirs.is_none() {
            break;
        }
        outcome.compared += 1;
        if ours != theirs {
            outcome.difference(|| {
                format!(
                    "answer {}{}: twin {}, other {}",
                    number + 1,
                    described(case, number),
                    shown(ours),
                    shown(theirs)
                )
            });
        }
    }
    outcome
}

fn shown(line: Option<&[u8]>) -> String {
    line.map_or_else(
        || "nothing".to_owned(),
        |line| {
            let (first, more) = line.split_at(line.len().min(SHOWN));
            let more = if more.is_empty() { "" } else { "..." };
            format!("\"{}{more}\"", first.escape_ascii())
        },
    )
}

/// What was asked of `replay`.
fn described(case: &Case, number: usize) -> String {
    if case.program != Program::Replay {
        return String::new();
    }
    let requests = case.input.get(4..).unwrap_or_default();
    let (requests, _) = requests.as_chunks::<LENGTH>();
    let Some(bytes) = requests.get(number) else {
        return String::new();
    };
    let Request {
        op,
        key,
        small,
        what,
        number,
    } = Request::of(*bytes);
    format!(
        " ({} key {} small {small} what {} number {number})",
        op.escape_ascii(),
        key.escape_ascii(),
        what.escape_ascii()
    )
}
