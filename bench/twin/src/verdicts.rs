//! Whether a berth has water for a class of ferry.

use std::error::Error;
use std::fmt;

use crate::bands::{Band, Class};
use crate::keeper::{Keeper, Refusal};
use crate::keys::SoundingKey;
use crate::tally::{Head, Row};

#[derive(Clone, Copy, Debug, PartialEq, Eq)]
pub enum Verdict {
    /// A quarter or more of the window's soundings are too shallow.
    Held,
    /// Less than a quarter are.
    Clear,
    /// The counts are not narrow enough to tell, or there are none.
    Unsure,
}

/// A verdict, and the sums that it was taken from.
#[derive(Clone, Copy, Debug, PartialEq, Eq)]
pub struct Judgement {
    pub verdict: Verdict,
    pub floor: u64,
    pub ceiling: u64,
}

impl Judgement {
    /// Judges by the two sums, in a window of that size.
    pub fn of(floor: u64, ceiling: u64, size: u32) -> Judgement {
        let size = u128::from(size);
        let verdict = if size >= 1 && 4 * u128::from(floor) >= size {
            Verdict::Held
        } else if 4 * u128::from(ceiling) < size {
            Verdict::Clear
        } else {
            Verdict::Unsure
        };
        Judgement {
            verdict,
            floor,
            ceiling,
        }
    }
}

impl fmt::Display for Judgement {
    fn fmt(&self, f: &mut fmt::Formatter<'_>) -> fmt::Result {
        let verdict = match self.verdict {
            Verdict::Held => "held",
            Verdict::Clear => "clear",
            Verdict::Unsure => "unsure",
        };
        write!(f, "{verdict} {} {}", self.floor, self.ceiling)
    }
}

#[derive(Clone, Copy, Debug, PartialEq, Eq)]
pub enum VerdictRefusal {
    Keeper(Refusal),
    Class,
}

impl VerdictRefusal {
    pub fn number(self) -> u32 {
        match self {
            VerdictRefusal::Keeper(refusal) => refusal.number(),
            VerdictRefusal::Class => 11,
        }
    }
}

impl From<Refusal> for VerdictRefusal {
    fn from(refusal: Refusal) -> VerdictRefusal {
        VerdictRefusal::Keeper(refusal)
    }
}

impl fmt::Display for VerdictRefusal {
    fn fmt(&self, f: &mut fmt::Formatter<'_>) -> fmt::Result {
        write!(f, "refused {}", self.number())
    }
}

impl Error for VerdictRefusal {}

/// The verdict on a class, from one sounder's readings in the window.
pub fn verdict<P: Keeper>(
    keeper: &P,
    rows: &[Row<SoundingKey>],
    heads: &[Head],
    sounder: [u8; 2],
    class: u8,
) -> Result<Judgement, VerdictRefusal> {
    keeper.need().check(rows, heads)?;
    let class = Class::new(class).ok_or(VerdictRefusal::Class)?;
    let (mut floor, mut ceiling) = (0, 0);
    for band in Band::short_for(class) {
        let bracket = keeper.count(rows, heads, &SoundingKey { sounder, band })?;
        floor += u64::from(bracket.floor);
        ceiling += u64::from(bracket.ceiling);
    }
    Ok(Judgement::of(floor, ceiling, keeper.figures().size))
}

#[cfg(test)]
mod tests {
    use super::*;

    #[test]
    fn a_quarter_of_the_window_is_too_much() {
        assert_eq!(Judgement::of(1, 1, 5).to_string(), "clear 1 1");
        assert_eq!(Judgement::of(1, 1, 4).to_string(), "held 1 1");
        assert_eq!(Judgement::of(0, 1, 4).to_string(), "unsure 0 1");
        assert_eq!(Judgement::of(0, 0, 0).to_string(), "unsure 0 0");
        assert_eq!(Judgement::of(5, 5, 5).to_string(), "held 5 5");
    }
}
