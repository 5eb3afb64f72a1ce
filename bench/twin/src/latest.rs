//! The window of the latest keys: it fills, turns and then slides by itself.

use crate::keeper::{Entry, Keeper, Refusal};
use crate::keys::{Key, SoundingKey};
use crate::settings::Setting;
use crate::stage::{Stage, Undone};
use crate::tally::{Head, Row};
use crate::verdicts::{Judgement, VerdictRefusal, verdict};

/// A window together with the tables that its keeper is lent.
#[derive(Debug)]
pub struct Latest<P, K> {
    stage: Stage<P>,
    rows: Vec<Row<K>>,
    heads: Vec<Head>,
}

impl<P: Keeper, K: Key> Latest<P, K> {
    /// A window of the latest `goal` keys. What the blank key is does not matter.
    pub fn new(setting: Setting, goal: u32, blank: K) -> Result<Latest<P, K>, Undone> {
        let mut stage = Stage::<P>::fresh(setting);
        stage.fix(goal)?;
        let need = stage.keeper().need();
        let row = Row {
            key: blank,
            count: 0,
        };
        Ok(Latest {
            stage,
            rows: vec![row; need.rows],
            heads: vec![Head::default(); need.heads],
        })
    }

    /// How many keys it holds.
    pub fn size(&self) -> u32 {
        self.stage.keeper().figures().size
    }

    pub fn put(&mut self, key: K) -> Result<(), Undone> {
        self.stage.bring(&mut self.rows, &mut self.heads, key)?;
        match &self.stage {
            Stage::Filling(window) if window.is_filled() => self.stage.turn(),
            _ => Ok(()),
        }
    }

    pub fn list(&self, threshold: u32, list: &mut [Entry<K>]) -> Result<usize, Refusal> {
        let keeper = self.stage.keeper();
        keeper.list(&self.rows, &self.heads, threshold, list)
    }
}

impl<P: Keeper> Latest<P, SoundingKey> {
    pub fn verdict(&self, sounder: [u8; 2], class: u8) -> Result<Judgement, VerdictRefusal> {
        let keeper = self.stage.keeper();
        verdict(keeper, &self.rows, &self.heads, sounder, class)
    }
}

#[cfg(test)]
mod tests {
    use super::*;
    use crate::keeper::Bracket;
    use crate::keys::AddressKey;
    use crate::ring::Ring;

    #[test]
    fn it_fills_and_then_slides() {
        let setting = Setting::new(1, 4).unwrap();
        let mut latest = Latest::<Ring, _>::new(setting, 3, AddressKey([0; 5])).unwrap();
        for (size, kind) in [(1, b'A'), (2, b'B'), (3, b'C'), (3, b'D'), (3, b'D')] {
            latest.put(AddressKey([0, 0, 0, 0, kind])).unwrap();
            assert_eq!(latest.size(), size);
        }
        let mut list = [Entry {
            key: AddressKey([0; 5]),
            bracket: Bracket::default(),
        }; 3];
        assert_eq!(latest.list(2, &mut list), Ok(1));
        assert_eq!(list[0].key, AddressKey([0, 0, 0, 0, b'D']));
        assert_eq!(list[0].bracket, Bracket::exact(2));
    }
}
