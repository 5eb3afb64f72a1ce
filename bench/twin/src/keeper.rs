//! What every keeper of a window does, and why it may refuse.

use std::error::Error;
use std::fmt;

use crate::keys::Key;
use crate::settings::Setting;
use crate::tally::{Head, Row};

/// So many puts a keeper accepts, ever.
pub const MOST_PUTS: u32 = 1 << 30;

#[derive(Clone, Copy, Debug, PartialEq, Eq)]
pub enum Refusal {
    ShortTable,
    ShortList,
    Spent,
    Full,
    Vacant,
    Threshold,
}

impl Refusal {
    pub fn number(self) -> u32 {
        match self {
            Refusal::ShortTable => 4,
            Refusal::ShortList => 5,
            Refusal::Spent => 6,
            Refusal::Full => 7,
            Refusal::Vacant => 8,
            Refusal::Threshold => 10,
        }
    }
}

impl fmt::Display for Refusal {
    fn fmt(&self, f: &mut fmt::Formatter<'_>) -> fmt::Result {
        write!(f, "refused {}", self.number())
    }
}

impl Error for Refusal {}

/// A true count lies between the two, ends included.
#[derive(Clone, Copy, Debug, Default, PartialEq, Eq)]
pub struct Bracket {
    pub floor: u32,
    pub ceiling: u32,
}

impl Bracket {
    /// The bracket of a count that is known exactly.
    pub fn exact(count: u32) -> Bracket {
        Bracket {
            floor: count,
            ceiling: count,
        }
    }
}

/// A key that a list names.
#[derive(Clone, Copy, Debug, PartialEq, Eq)]
pub struct Entry<K> {
    pub key: K,
    pub bracket: Bracket,
}

/// How many rows and heads are needed, or lent.
#[derive(Clone, Copy, Debug, PartialEq, Eq)]
pub struct Need {
    pub rows: usize,
    pub heads: usize,
}

impl Need {
    /// Refuses tables that are shorter than this.
    pub fn check<K>(self, rows: &[Row<K>], heads: &[Head]) -> Result<(), Refusal> {
        if rows.len() < self.rows || heads.len() < self.heads {
            return Err(Refusal::ShortTable);
        }
        Ok(())
    }
}

/// The numbers of a keeper's record: its setting, how many puts were accepted, and the window's size.
#[derive(Debug)]
pub struct Figures {
    pub setting: Setting,
    pub puts: u32,
    pub size: u32,
}

impl Figures {
    pub fn fresh(setting: Setting) -> Figures {
        Figures {
            setting,
            puts: 0,
            size: 0,
        }
    }

    /// Refuses a put where none is left, or where the window has reached the limit.
    pub fn check_put(&self, limit: u32) -> Result<(), Refusal> {
        if self.puts >= MOST_PUTS {
            Err(Refusal::Spent)
        } else if self.size >= limit {
            Err(Refusal::Full)
        } else {
            Ok(())
        }
    }

    pub fn check_threshold(&self, threshold: u32) -> Result<(), Refusal> {
        if self.setting.answers(threshold, self.size) {
            Ok(())
        } else {
            Err(Refusal::Threshold)
        }
    }

    /// Notes an accepted put.
    pub fn grow(&mut self) {
        self.puts += 1;
        self.size += 1;
    }

    /// Lets the oldest key go.
    pub fn shrink(&mut self) -> Result<(), Refusal> {
        self.size = self.size.checked_sub(1).ok_or(Refusal::Vacant)?;
        Ok(())
    }
}

/// Counts keys over a window to which they come at one end and from which they go at the other. The caller lends the
/// same two tables to every call, as the keeper left them.
pub trait Keeper {
    /// A keeper of the empty window, whatever the tables hold.
    fn fresh(setting: Setting) -> Self;

    fn figures(&self) -> &Figures;

    fn need(&self) -> Need;

    /// A key comes at the window's end.
    fn put<K: Key>(
        &mut self,
        rows: &mut [Row<K>],
        heads: &mut [Head],
        key: K,
    ) -> Result<(), Refusal>;

    /// The window's oldest key goes.
    fn drop_oldest(&mut self) -> Result<(), Refusal>;

    /// The bracket of a key's count.
    fn count<K: Key>(&self, rows: &[Row<K>], heads: &[Head], key: &K) -> Result<Bracket, Refusal>;

    /// Writes the keys that may count so much to the front of the list, and answers how many they are.
    fn list<K: Key>(
        &self,
        rows: &[Row<K>],
        heads: &[Head],
        threshold: u32,
        list: &mut [Entry<K>],
    ) -> Result<usize, Refusal>;
}

/// Writes all entries to the front of a list, or none where they do not fit. They are gone through twice, so that a
/// refused list stays as it was without storing the entries elsewhere.
pub fn write_entries<K, I>(entries: I, list: &mut [Entry<K>]) -> Result<usize, Refusal>
where
    I: Iterator<Item = Entry<K>> + Clone,
{
    let many = entries.clone().count();
    let places = list.get_mut(..many).ok_or(Refusal::ShortList)?;
    for (place, entry) in places.iter_mut().zip(entries) {
        *place = entry;
    }
    Ok(many)
}
