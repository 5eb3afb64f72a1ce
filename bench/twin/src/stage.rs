//! A keeper, or a fixed window over it: whatever calls in any order have made of it.

use std::error::Error;
use std::fmt;
use std::mem;

use crate::keeper::{Keeper, Refusal};
use crate::keys::Key;
use crate::settings::Setting;
use crate::tally::{Head, Row};
use crate::windows::{Filling, Returned, Sliding, WindowRefusal};

#[derive(Debug)]
pub enum Stage<P> {
    Keeping(P),
    Filling(Filling<P>),
    Sliding(Sliding<P>),
}

/// Why a call was not done.
#[derive(Clone, Copy, Debug, PartialEq, Eq)]
pub enum Undone {
    /// The present state does not have the call.
    NotInTrace,
    Refused(WindowRefusal),
}

impl fmt::Display for Undone {
    fn fmt(&self, f: &mut fmt::Formatter<'_>) -> fmt::Result {
        match self {
            Undone::NotInTrace => write!(f, "not in trace"),
            Undone::Refused(refusal) => write!(f, "{refusal}"),
        }
    }
}

impl Error for Undone {}

impl From<Refusal> for Undone {
    fn from(refusal: Refusal) -> Undone {
        Undone::Refused(refusal.into())
    }
}

impl From<WindowRefusal> for Undone {
    fn from(refusal: WindowRefusal) -> Undone {
        Undone::Refused(refusal)
    }
}

impl<P: Keeper> Stage<P> {
    pub fn fresh(setting: Setting) -> Stage<P> {
        Stage::Keeping(P::fresh(setting))
    }

    /// The keeper, to be asked and not to be changed.
    pub fn keeper(&self) -> &P {
        match self {
            Stage::Keeping(keeper) => keeper,
            Stage::Filling(window) => window.keeper(),
            Stage::Sliding(window) => window.keeper(),
        }
    }

    pub fn fix(&mut self, goal: u32) -> Result<(), Undone> {
        self.change(|stage| match stage {
            Stage::Keeping(keeper) => match Filling::new(keeper, goal) {
                Ok(window) => (Stage::Filling(window), Ok(())),
                Err(Returned { back, refusal }) => (Stage::Keeping(back), Err(refusal.into())),
            },
            other => (other, Err(Undone::NotInTrace)),
        })
    }

    pub fn turn(&mut self) -> Result<(), Undone> {
        self.change(|stage| match stage {
            Stage::Filling(window) => match window.turn() {
                Ok(window) => (Stage::Sliding(window), Ok(())),
                Err(Returned { back, refusal }) => (Stage::Filling(back), Err(refusal.into())),
            },
            other => (other, Err(Undone::NotInTrace)),
        })
    }

    pub fn put<K: Key>(
        &mut self,
        rows: &mut [Row<K>],
        heads: &mut [Head],
        key: K,
    ) -> Result<(), Undone> {
        match self {
            Stage::Keeping(keeper) => Ok(keeper.put(rows, heads, key)?),
            Stage::Filling(window) => Ok(window.put(rows, heads, key)?),
            Stage::Sliding(_) => Err(Undone::NotInTrace),
        }
    }

    pub fn slide<K: Key>(
        &mut self,
        rows: &mut [Row<K>],
        heads: &mut [Head],
        key: K,
    ) -> Result<(), Undone> {
        match self {
            Stage::Sliding(window) => Ok(window.slide(rows, heads, key)?),
            _ => Err(Undone::NotInTrace),
        }
    }

    /// A key comes, by whichever call the present state has for that.
    pub fn bring<K: Key>(
        &mut self,
        rows: &mut [Row<K>],
        heads: &mut [Head],
        key: K,
    ) -> Result<(), Undone> {
        match self {
            Stage::Sliding(window) => Ok(window.slide(rows, heads, key)?),
            _ => self.put(rows, heads, key),
        }
    }

    pub fn drop_oldest(&mut self) -> Result<(), Undone> {
        match self {
            Stage::Keeping(keeper) => Ok(keeper.drop_oldest()?),
            _ => Err(Undone::NotInTrace),
        }
    }

    /// Windows are made and turned by value; a fresh keeper stands in for the moment.
    fn change<T>(&mut self, make: impl FnOnce(Stage<P>) -> (Stage<P>, T)) -> T {
        let stand_in = Stage::fresh(self.keeper().figures().setting);
        let (stage, answer) = make(mem::replace(self, stand_in));
        *self = stage;
        answer
    }
}

#[cfg(test)]
mod tests {
    use super::*;
    use crate::keeper::{Bracket, Entry};
    use crate::ring::Ring;

    #[derive(Clone, Copy, Debug, PartialEq)]
    struct Letter(char);

    impl Key for Letter {
        fn alike(&self, other: &Self) -> bool {
            self == other
        }
    }

    struct Fixture {
        stage: Stage<Ring>,
        rows: [Row<Letter>; 16],
        list: [Entry<Letter>; 4],
    }

    impl Fixture {
        fn put(&mut self, key: char) -> Result<(), Undone> {
            self.stage.put(&mut self.rows, &mut [], Letter(key))
        }

        fn slide(&mut self, key: char) -> Result<(), Undone> {
            self.stage.slide(&mut self.rows, &mut [], Letter(key))
        }

        fn count(&self, key: char) -> u32 {
            let bracket = self
                .stage
                .keeper()
                .count(&self.rows, &[], &Letter(key))
                .unwrap();
            assert_eq!(bracket.floor, bracket.ceiling);
            bracket.floor
        }

        fn list(&mut self, threshold: u32) -> Result<usize, Refusal> {
            self.stage
                .keeper()
                .list(&self.rows, &[], threshold, &mut self.list)
        }
    }

    fn refused(refusal: impl Into<WindowRefusal>) -> Result<(), Undone> {
        Err(Undone::Refused(refusal.into()))
    }

    fn fixture() -> Fixture {
        let key = Letter('-');
        let bracket = Bracket::default();
        Fixture {
            stage: Stage::fresh(Setting::new(1, 4).unwrap()),
            rows: [Row { key, count: 0 }; 16],
            list: [Entry { key, bracket }; 4],
        }
    }

    #[test]
    fn the_example_trace_of_a_ring() {
        let absent = Err(Undone::NotInTrace);
        let mut trace = fixture();
        assert_eq!(trace.stage.turn(), absent);
        assert_eq!(trace.stage.fix(16), refused(WindowRefusal::Unfit));
        assert_eq!(trace.put('A'), Ok(()));
        assert_eq!(trace.stage.fix(3), refused(WindowRefusal::Unfit));
        assert_eq!(trace.stage.drop_oldest(), Ok(()));
        assert_eq!(trace.stage.drop_oldest(), refused(Refusal::Vacant));
        assert_eq!(trace.count('A'), 0);
        assert_eq!(trace.stage.fix(3), Ok(()));
        assert_eq!(trace.put('B'), Ok(()));
        assert_eq!(trace.stage.drop_oldest(), absent);
        assert_eq!(trace.stage.turn(), refused(WindowRefusal::Unfilled));
        assert_eq!((trace.put('A'), trace.put('B')), (Ok(()), Ok(())));
        assert_eq!(trace.put('C'), refused(Refusal::Full));
        assert_eq!(trace.count('B'), 2);
        assert_eq!(trace.stage.turn(), Ok(()));
        assert_eq!(trace.put('C'), absent);
        assert_eq!(trace.slide('C'), Ok(()));
        assert_eq!(trace.count('B'), 1);
        assert_eq!(trace.list(1), Err(Refusal::Threshold));
        assert_eq!(trace.list(2), Ok(0));
        assert_eq!(trace.slide('C'), Ok(()));
        assert_eq!(trace.list(2), Ok(1));
        assert_eq!(trace.list[0].key, Letter('C'));
        assert_eq!(trace.list[0].bracket, Bracket::exact(2));
    }
}
