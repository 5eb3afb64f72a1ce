//! The keeper that stores no keys but those of tallies, one for each of many blocks of arrivals.

use crate::keeper::{Bracket, Entry, Figures, Keeper, Need, Refusal, write_entries};
use crate::keys::Key;
use crate::layout::{Layout, MOST_BLOCKS};
use crate::settings::Setting;
use crate::tally::{Head, Row, count_of, look_for, rows_in_use, step};

#[derive(Debug)]
pub struct Ladder {
    figures: Figures,
    layout: Layout,
}

impl Ladder {
    /// The tallies that answer for the window as it is.
    fn covered<'a, K>(&self, rows: &'a [Row<K>], heads: &[Head]) -> Covered<'a, K> {
        let cover = self.layout.cover(self.figures.puts, self.figures.size);
        let mut covered = Covered {
            tallies: [&[]; MOST_BLOCKS],
            many: 0,
            slack: cover.ignored(),
        };
        for slot in cover {
            let head = heads[slot.head];
            let rows = &rows[slot.first_row..slot.first_row + slot.rows];
            covered.tallies[covered.many] = rows_in_use(rows, head);
            covered.many += 1;
            covered.slack = covered.slack.saturating_add(head.lost);
        }
        covered
    }
}

impl Keeper for Ladder {
    fn fresh(setting: Setting) -> Ladder {
        Ladder {
            figures: Figures::fresh(setting),
            layout: Layout::new(setting),
        }
    }

    fn figures(&self) -> &Figures {
        &self.figures
    }

    fn need(&self) -> Need {
        self.layout.need()
    }

    fn put<K: Key>(
        &mut self,
        rows: &mut [Row<K>],
        heads: &mut [Head],
        key: K,
    ) -> Result<(), Refusal> {
        self.need().check(rows, heads)?;
        self.figures.check_put(self.figures.setting.capacity())?;
        for visit in self.layout.visits(self.figures.puts) {
            let slot = visit.slot;
            let head = &mut heads[slot.head];
            if visit.begins {
                *head = Head::default();
            }
            let rows = &mut rows[slot.first_row..slot.first_row + slot.rows];
            step(rows, head, key);
        }
        self.figures.grow();
        Ok(())
    }

    fn drop_oldest(&mut self) -> Result<(), Refusal> {
        self.figures.shrink()
    }

    fn count<K: Key>(&self, rows: &[Row<K>], heads: &[Head], key: &K) -> Result<Bracket, Refusal> {
        self.need().check(rows, heads)?;
        Ok(self.covered(rows, heads).bracket(0, key))
    }

    fn list<K: Key>(
        &self,
        rows: &[Row<K>],
        heads: &[Head],
        threshold: u32,
        list: &mut [Entry<K>],
    ) -> Result<usize, Refusal> {
        self.need().check(rows, heads)?;
        self.figures.check_threshold(threshold)?;
        let covered = self.covered(rows, heads);
        let named = covered
            .entries()
            .filter(|entry| entry.bracket.ceiling >= threshold);
        write_entries(named, list)
    }
}

/// The rows in use of a cover's blocks, oldest block first, and how much they and the window's ends may have missed.
struct Covered<'a, K> {
    tallies: [&'a [Row<K>]; MOST_BLOCKS],
    many: usize,
    slack: u32,
}

impl<K: Key> Covered<'_, K> {
    fn tallies(&self) -> &[&[Row<K>]] {
        &self.tallies[..self.many]
    }

    /// The bracket of a key that stands in no tally before that place.
    fn bracket(&self, from: usize, key: &K) -> Bracket {
        let floor = self.tallies()[from..]
            .iter()
            .fold(0u32, |sum, rows| sum.saturating_add(count_of(rows, key)));
        Bracket {
            floor,
            ceiling: floor.saturating_add(self.slack),
        }
    }

    /// Every unlike key of the tallies, as it stands in its first row, with its bracket.
    fn entries(&self) -> impl Iterator<Item = Entry<K>> + Clone {
        self.tallies()
            .iter()
            .enumerate()
            .flat_map(move |(at, rows)| {
                rows.iter()
                    .enumerate()
                    .filter_map(move |(row, Row { key, .. })| {
                        let before = self.tallies()[..at].iter().copied();
                        let mut before = before.chain([&rows[..row]]);
                        let is_first = before.all(|rows| look_for(rows, key).is_none());
                        is_first.then(|| Entry {
                            key: *key,
                            bracket: self.bracket(at, key),
                        })
                    })
            })
    }
}

#[cfg(test)]
mod tests {
    use super::*;

    #[derive(Clone, Copy, Debug, PartialEq)]
    struct Letter(char);

    impl Key for Letter {
        fn alike(&self, other: &Self) -> bool {
            self == other
        }
    }

    struct Fixture {
        ladder: Ladder,
        rows: Vec<Row<Letter>>,
        heads: Vec<Head>,
    }

    impl Fixture {
        /// Tables that hold anything: a keeper takes no notice.
        fn new(accuracy: u32, span: u32) -> Fixture {
            let ladder = Ladder::fresh(Setting::new(accuracy, span).unwrap());
            let Need { rows, heads } = ladder.need();
            let odd = Row {
                key: Letter('A'),
                count: 77,
            };
            Fixture {
                ladder,
                rows: vec![odd; rows],
                heads: vec![Head { used: 9, lost: 5 }; heads],
            }
        }

        fn put(&mut self, keys: &str) {
            for key in keys.chars() {
                self.ladder
                    .put(&mut self.rows, &mut self.heads, Letter(key))
                    .unwrap();
            }
        }

        fn count(&self, key: char) -> (u32, u32) {
            let bracket = self
                .ladder
                .count(&self.rows, &self.heads, &Letter(key))
                .unwrap();
            (bracket.floor, bracket.ceiling)
        }

        fn list(&self, threshold: u32) -> Result<Vec<(char, u32, u32)>, Refusal> {
            let blank = Entry {
                key: Letter('-'),
                bracket: Bracket::default(),
            };
            let mut list = [blank; 32];
            let many = self
                .ladder
                .list(&self.rows, &self.heads, threshold, &mut list)?;
            let told =
                |entry: &Entry<Letter>| (entry.key.0, entry.bracket.floor, entry.bracket.ceiling);
            Ok(list[..many].iter().map(told).collect())
        }
    }

    #[test]
    fn the_example_with_twenty_arrivals() {
        let mut told = Fixture::new(1, 5);
        told.put("ABBBBBBBBBBBBBBBBBCC");
        told.ladder.drop_oldest().unwrap();
        assert_eq!(told.count('B'), (16, 17));
        assert_eq!(told.count('C'), (2, 3));
        assert_eq!(told.count('A'), (0, 1));
        assert_eq!(told.count('X'), (0, 1));
        assert_eq!(told.list(10), Ok(vec![('B', 16, 17)]));
    }

    #[test]
    fn seventeen_alike_keys_are_one_apart() {
        let mut told = Fixture::new(1, 5);
        assert_eq!(told.count('A'), (0, 0));
        told.put("AAAAAAAAAAAAAAAA");
        assert_eq!(told.count('A'), (16, 16));
        told.put("A");
        assert_eq!(told.count('A'), (16, 17));
        assert_eq!(told.list(8), Err(Refusal::Threshold));
        assert_eq!(told.list(9), Ok(vec![('A', 16, 17)]));
    }

    #[test]
    fn brackets_hold_the_true_count_of_every_window() {
        let mut told = Fixture::new(1, 6);
        let mut window = std::collections::VecDeque::new();
        for put in 0..2000u32 {
            let key = char::from(b'a' + (put.wrapping_mul(2_654_435_761) >> 29) as u8);
            if window.len() == 64 || put % 300 > 230 {
                for _ in 0..1 + put % 2 {
                    told.ladder.drop_oldest().unwrap();
                    window.pop_front();
                }
            }
            told.put(&key.to_string());
            window.push_back(key);
            for key in 'a'..='i' {
                let truly = window.iter().filter(|other| **other == key).count() as u32;
                let (floor, ceiling) = told.count(key);
                assert!(floor <= truly && truly <= ceiling);
                assert!(2 * (ceiling - floor) < window.len() as u32);
            }
        }
    }
}
