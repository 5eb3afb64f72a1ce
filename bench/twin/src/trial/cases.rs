//! The cases of a run: which kinds there are, and in which shares.

use std::io;

use crate::lines::MOST_LINES;
use crate::trial::random::Random;
use crate::trial::{bursts, damage, edges, spoiled, wander};
use crate::{bedwatch, linewatch, replay};

#[derive(Clone, Copy, Debug, PartialEq, Eq)]
pub enum Program {
    Bedwatch,
    Linewatch,
    Replay,
}

impl Program {
    pub fn name(self) -> &'static str {
        match self {
            Program::Bedwatch => "bedwatch",
            Program::Linewatch => "linewatch",
            Program::Replay => "replay",
        }
    }

    /// What this package answers to an input.
    pub fn answer(self, input: &[u8]) -> io::Result<Vec<u8>> {
        let mut output = Vec::new();
        match self {
            Program::Bedwatch => bedwatch::run(input, &mut output)?,
            Program::Linewatch => linewatch::run(input, &mut output)?,
            Program::Replay => replay::run(input, &mut output)?,
        }
        Ok(output)
    }
}

/// An input for a program.
#[derive(Clone, Debug)]
pub struct Case {
    pub kind: &'static str,
    pub program: Program,
    pub input: Vec<u8>,
    /// Whether each answer is waited for before more is said.
    pub waits: bool,
}

impl Case {
    fn new(kind: &'static str, program: Program, input: Vec<u8>) -> Case {
        Case {
            kind,
            program,
            input,
            waits: false,
        }
    }
}

/// Of so many cases in a row, each kind has its share.
const ROUND: u64 = 40;

/// The case of that number. It depends on the seed and the number alone.
pub fn case(seed: u64, number: u64) -> Case {
    let random = Random::of_case(seed, number);
    match number % ROUND {
        0..11 => Case::new("random", Program::Replay, wander::random_trace(random)),
        11 | 12 => Case::new("spoiled", Program::Replay, spoiled::spoiled_trace(random)),
        13..24 => Case::new("edges", Program::Replay, edges::adversarial_trace(random)),
        24..27 => Case::new("burst", Program::Replay, bursts::burst(random)),
        27 => Case::new("header", Program::Replay, bursts::bad_header(random)),
        28 => Case {
            waits: true,
            ..Case::new("waiting", Program::Replay, wander::random_trace(random))
        },
        29..33 => Case::new("damaged", Program::Bedwatch, damage::damaged(random)),
        33 | 34 => Case::new("systematic", Program::Bedwatch, damage::systematic(random)),
        35 => Case::new("good", Program::Bedwatch, damage::good(random)),
        36 | 37 => Case::new("damaged", Program::Linewatch, damage::damaged(random)),
        38 => Case::new("systematic", Program::Linewatch, damage::systematic(random)),
        _ => Case::new("good", Program::Linewatch, damage::good(random)),
    }
}

/// How many cases there are that are large and of one kind each.
pub const LARGE: u64 = 4;

/// A large case, if there is one of that number.
pub fn large_case(seed: u64, number: u64) -> Option<Case> {
    let random = Random::of_case(seed, u64::MAX - number);
    let case = |program, input| Case::new("large", program, input);
    match number {
        0 => Some(case(Program::Replay, bursts::spent_filling().ok()?)),
        1 => Some(case(Program::Replay, bursts::spent_sliding().ok()?)),
        2 => {
            let input = damage::too_many(random, MOST_LINES);
            Some(case(Program::Bedwatch, input))
        }
        3 => {
            let input = damage::too_many(random, MOST_LINES);
            Some(case(Program::Linewatch, input))
        }
        _ => None,
    }
}
