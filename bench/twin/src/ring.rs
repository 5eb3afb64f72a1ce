//! The keeper that stores its whole window.

use std::iter;

use crate::keeper::{Bracket, Entry, Figures, Keeper, Need, Refusal, write_entries};
use crate::keys::Key;
use crate::settings::Setting;
use crate::tally::{Head, Row, look_for};

#[derive(Debug)]
pub struct Ring {
    figures: Figures,
}

impl Ring {
    /// The row of a put.
    fn place(&self, put: u32) -> usize {
        (put & (self.figures.setting.capacity() - 1)) as usize
    }

    /// The window's rows in two pieces, oldest first. The second is what lies over the table's end.
    fn window<'a, K>(&self, rows: &'a [Row<K>]) -> [&'a [Row<K>]; 2] {
        let rows = &rows[..self.need().rows];
        let first = self.place(self.figures.puts - self.figures.size);
        let straight = (rows.len() - first).min(self.figures.size as usize);
        let around = self.figures.size as usize - straight;
        [&rows[first..first + straight], &rows[..around]]
    }
}

impl Keeper for Ring {
    fn fresh(setting: Setting) -> Ring {
        Ring {
            figures: Figures::fresh(setting),
        }
    }

    fn figures(&self) -> &Figures {
        &self.figures
    }

    fn need(&self) -> Need {
        Need {
            rows: self.figures.setting.capacity() as usize,
            heads: 0,
        }
    }

    fn put<K: Key>(
        &mut self,
        rows: &mut [Row<K>],
        heads: &mut [Head],
        key: K,
    ) -> Result<(), Refusal> {
        self.need().check(rows, heads)?;
        self.figures.check_put(self.figures.setting.capacity())?;
        rows[self.place(self.figures.puts)] = Row { key, count: 1 };
        self.figures.grow();
        Ok(())
    }

    fn drop_oldest(&mut self) -> Result<(), Refusal> {
        self.figures.shrink()
    }

    fn count<K: Key>(&self, rows: &[Row<K>], heads: &[Head], key: &K) -> Result<Bracket, Refusal> {
        self.need().check(rows, heads)?;
        Ok(Bracket::exact(count_alike(self.window(rows), key)))
    }

    fn list<K: Key>(
        &self,
        rows: &[Row<K>],
        heads: &[Head],
        threshold: u32,
        list: &mut [Entry<K>],
    ) -> Result<usize, Refusal> {
        self.need().check(rows, heads)?;
        self.figures.check_threshold(threshold)?;
        let named =
            first_places(self.window(rows)).filter(move |entry| entry.bracket.ceiling >= threshold);
        write_entries(named, list)
    }
}

/// Every unlike key of the window at its first place, with its count.
fn first_places<K: Key>(window: [&[Row<K>]; 2]) -> impl Iterator<Item = Entry<K>> + Clone {
    let [old, new] = window;
    let in_old = (0..old.len()).map(move |at| ([&old[..at], &[]], [&old[at..], new]));
    let in_new = (0..new.len()).map(move |at| ([old, &new[..at]], [&[], &new[at..]]));
    iter::chain(in_old, in_new).filter_map(|(before, from)| {
        let key = from.iter().find_map(|piece| piece.first())?.key;
        let is_first = before.iter().all(|piece| look_for(piece, &key).is_none());
        is_first.then(|| Entry {
            key,
            bracket: Bracket::exact(count_alike(from, &key)),
        })
    })
}

/// How many rows of the two pieces are alike to the key.
fn count_alike<K: Key>(pieces: [&[Row<K>]; 2], key: &K) -> u32 {
    let alike = |rows: &[Row<K>]| rows.iter().filter(|row| row.key.alike(key)).count() as u32;
    alike(pieces[0]) + alike(pieces[1])
}

#[cfg(test)]
mod tests {
    use super::*;
    use crate::keys::AddressKey;

    fn listed(
        ring: &Ring,
        rows: &[Row<AddressKey>],
        threshold: u32,
    ) -> Result<Vec<Entry<AddressKey>>, Refusal> {
        let blank = Entry {
            key: AddressKey([0; 5]),
            bracket: Bracket::default(),
        };
        let mut list = vec![blank; 16];
        let many = ring.list(rows, &[], threshold, &mut list)?;
        list.truncate(many);
        Ok(list)
    }

    #[test]
    fn the_example_with_sixteen_rows() {
        let mut ring = Ring::fresh(Setting::new(1, 4).unwrap());
        let blank = Row {
            key: AddressKey([0; 5]),
            count: 0,
        };
        let mut rows = vec![blank; 16];
        for _ in 0..14 {
            ring.put(&mut rows, &mut [], AddressKey(*b"SDVTG")).unwrap();
            ring.drop_oldest().unwrap();
        }
        for address in [b"SDDPT", b"SDDBT", b"IIDPT", b"SDDPT", b"SDDBT"] {
            ring.put(&mut rows, &mut [], AddressKey(*address)).unwrap();
        }
        let count = ring.count(&rows, &[], &AddressKey(*b"VWDPT"));
        assert_eq!(count, Ok(Bracket::exact(3)));
        assert_eq!(
            listed(&ring, &rows, 3),
            Ok(vec![Entry {
                key: AddressKey(*b"SDDPT"),
                bracket: Bracket::exact(3)
            }])
        );
        assert_eq!(listed(&ring, &rows, 2), Err(Refusal::Threshold));
    }

    #[test]
    fn refusals_come_in_order_and_change_nothing() {
        let mut ring = Ring::fresh(Setting::new(1, 4).unwrap());
        let blank = Row {
            key: AddressKey([0; 5]),
            count: 0,
        };
        let mut rows = vec![blank; 16];
        assert_eq!(ring.drop_oldest(), Err(Refusal::Vacant));
        for i in 0..16 {
            ring.put(&mut rows, &mut [], AddressKey([0, 0, 0, 0, i]))
                .unwrap();
        }
        let more = AddressKey([9; 5]);
        assert_eq!(ring.put(&mut rows, &mut [], more), Err(Refusal::Full));
        assert_eq!(
            ring.put(&mut rows[..15], &mut [], more),
            Err(Refusal::ShortTable)
        );
        let mut list: [Entry<AddressKey>; 0] = [];
        assert_eq!(ring.list(&rows, &[], 8, &mut list), Ok(0));
        assert_eq!(ring.list(&rows, &[], 7, &mut list), Err(Refusal::Threshold));
        ring.put(&mut rows, &mut [], more).unwrap_err();
        for _ in 0..14 {
            ring.drop_oldest().unwrap();
        }
        assert_eq!(ring.list(&rows, &[], 1, &mut list), Err(Refusal::ShortList));
    }
}
