//! Windows of a fixed size over a keeper: first filling, then sliding.

use std::error::Error;
use std::fmt;

use crate::keeper::{Keeper, Refusal};
use crate::keys::Key;
use crate::tally::{Head, Row};

#[derive(Clone, Copy, Debug, PartialEq, Eq)]
pub enum WindowRefusal {
    Unfit,
    Unfilled,
    Keeper(Refusal),
}

impl WindowRefusal {
    pub fn number(self) -> u32 {
        match self {
            WindowRefusal::Unfit => 3,
            WindowRefusal::Unfilled => 9,
            WindowRefusal::Keeper(refusal) => refusal.number(),
        }
    }
}

impl From<Refusal> for WindowRefusal {
    fn from(refusal: Refusal) -> WindowRefusal {
        WindowRefusal::Keeper(refusal)
    }
}

impl fmt::Display for WindowRefusal {
    fn fmt(&self, f: &mut fmt::Formatter<'_>) -> fmt::Result {
        write!(f, "refused {}", self.number())
    }
}

impl Error for WindowRefusal {}

/// What a refused call hands back, with the reason.
#[derive(Debug)]
pub struct Returned<T> {
    pub back: T,
    pub refusal: WindowRefusal,
}

/// A window that grows up to its goal.
#[derive(Debug)]
pub struct Filling<P> {
    keeper: P,
    goal: u32,
}

/// A window that keeps its size: with each key that comes, the oldest goes.
#[derive(Debug)]
pub struct Sliding<P> {
    keeper: P,
}

impl<P: Keeper> Filling<P> {
    /// Takes a keeper whose window is empty. A window that slides holds one key more for a moment, so the goal has to
    /// leave room for it.
    pub fn new(keeper: P, goal: u32) -> Result<Filling<P>, Returned<P>> {
        let figures = keeper.figures();
        let fit = 1..figures.setting.capacity();
        if figures.size != 0 || !fit.contains(&goal) {
            return Err(Returned {
                back: keeper,
                refusal: WindowRefusal::Unfit,
            });
        }
        Ok(Filling { keeper, goal })
    }

    pub fn goal(&self) -> u32 {
        self.goal
    }

    /// The keeper, to be asked and not to be changed.
    pub fn keeper(&self) -> &P {
        &self.keeper
    }

    pub fn is_filled(&self) -> bool {
        self.keeper.figures().size >= self.goal
    }

    pub fn put<K: Key>(
        &mut self,
        rows: &mut [Row<K>],
        heads: &mut [Head],
        key: K,
    ) -> Result<(), WindowRefusal> {
        self.keeper.need().check(rows, heads)?;
        self.keeper.figures().check_put(self.goal)?;
        Ok(self.keeper.put(rows, heads, key)?)
    }

    /// Makes a filled window slide.
    pub fn turn(self) -> Result<Sliding<P>, Returned<Filling<P>>> {
        if !self.is_filled() {
            return Err(Returned {
                back: self,
                refusal: WindowRefusal::Unfilled,
            });
        }
        Ok(Sliding {
            keeper: self.keeper,
        })
    }
}

impl<P: Keeper> Sliding<P> {
    /// The keeper, to be asked and not to be changed.
    pub fn keeper(&self) -> &P {
        &self.keeper
    }

    pub fn slide<K: Key>(
        &mut self,
        rows: &mut [Row<K>],
        heads: &mut [Head],
        key: K,
    ) -> Result<(), WindowRefusal> {
        self.keeper.put(rows, heads, key)?;
        Ok(self.keeper.drop_oldest()?)
    }
}
