//! The Misra-Gries tally that lies in a slot: a few rows of a lent table, and a head.

use crate::keys::Key;

/// One place of a row table.
#[derive(Clone, Copy, Debug, PartialEq, Eq)]
pub struct Row<K> {
    pub key: K,
    pub count: u32,
}

/// How many rows of a slot are in use, from the first on, and how often all its counts fell.
#[derive(Clone, Copy, Debug, Default, PartialEq, Eq)]
pub struct Head {
    pub used: u32,
    pub lost: u32,
}

/// The rows of a slot that count something. A head may tell more than there are: then all are in use.
pub fn rows_in_use<K>(rows: &[Row<K>], head: Head) -> &[Row<K>] {
    &rows[..rows.len().min(head.used as usize)]
}

/// The place of the first row that is alike to the key.
pub fn look_for<K: Key>(rows: &[Row<K>], key: &K) -> Option<usize> {
    rows.iter().position(|row| row.key.alike(key))
}

/// What rows in use count of a key.
pub fn count_of<K: Key>(rows: &[Row<K>], key: &K) -> u32 {
    look_for(rows, key).map_or(0, |place| rows[place].count)
}

/// Brings one key to the tally in these rows.
pub fn step<K: Key>(rows: &mut [Row<K>], head: &mut Head, key: K) {
    // `used` has 32 bits, so rows that it cannot reach stay out of use.
    let room = rows.len().min(u32::MAX as usize);
    let used = room.min(head.used as usize);
    if let Some(place) = look_for(&rows[..used], &key) {
        let count = &mut rows[place].count;
        *count = count.saturating_add(1);
        head.used = used as u32;
    } else if used < room {
        rows[used] = Row { key, count: 1 };
        head.used = used as u32 + 1;
    } else {
        head.used = lower(&mut rows[..used]) as u32;
        head.lost = head.lost.saturating_add(1);
    }
}

/// Takes one off every count and moves the rows that still count something together; answers how many they are.
/// The rows behind them are left as they were.
fn lower<K: Key>(rows: &mut [Row<K>]) -> usize {
    let mut kept = 0;
    for place in 0..rows.len() {
        let Row { key, count } = rows[place];
        if count > 1 {
            rows[kept] = Row {
                key,
                count: count - 1,
            };
            kept += 1;
        }
    }
    kept
}

#[cfg(test)]
mod tests {
    use super::*;

    #[derive(Clone, Copy, Debug, PartialEq)]
    struct Letter(char);

    impl Key for Letter {
        fn alike(&self, other: &Self) -> bool {
            self == other
        }
    }

    fn row(key: char, count: u32) -> Row<Letter> {
        Row {
            key: Letter(key),
            count,
        }
    }

    fn in_use(rows: &[Row<Letter>], head: Head) -> String {
        rows_in_use(rows, head)
            .iter()
            .map(|row| format!("{}{}", row.key.0, row.count))
            .collect()
    }

    #[test]
    fn the_example_with_two_rows() {
        let mut rows = [row('-', 0); 2];
        let mut head = Head::default();
        let after = [
            ('A', "A1", 0),
            ('B', "A1B1", 0),
            ('A', "A2B1", 0),
            ('C', "A1", 1),
            ('D', "A1D1", 1),
            ('B', "", 2),
        ];
        for (key, expected, lost) in after {
            step(&mut rows, &mut head, Letter(key));
            assert_eq!(in_use(&rows, head), expected);
            assert_eq!(head.lost, lost);
        }
    }

    #[test]
    fn a_fall_writes_no_row_that_is_given_up() {
        let mut rows = [row('A', 1), row('B', 3), row('C', 1)];
        let mut head = Head { used: 3, lost: 0 };
        step(&mut rows, &mut head, Letter('D'));
        assert_eq!(rows, [row('B', 2), row('B', 3), row('C', 1)]);
        assert_eq!(head, Head { used: 1, lost: 1 });
    }

    #[test]
    fn odd_contents_are_taken_as_they_are() {
        let mut rows = [row('A', u32::MAX), row('B', 0)];
        let mut head = Head {
            used: 9,
            lost: u32::MAX,
        };
        step(&mut rows, &mut head, Letter('A'));
        assert_eq!(rows, [row('A', u32::MAX), row('B', 0)]);
        assert_eq!(head.used, 2);
        step(&mut rows, &mut head, Letter('C'));
        assert_eq!(rows, [row('A', u32::MAX - 1), row('B', 0)]);
        assert_eq!(
            head,
            Head {
                used: 1,
                lost: u32::MAX
            }
        );
    }

    #[test]
    fn a_slot_without_rows_loses_every_key() {
        let mut head = Head { used: 3, lost: 4 };
        step(&mut [], &mut head, Letter('A'));
        assert_eq!(head, Head { used: 0, lost: 5 });
    }
}
