//! Where the keys of a trace come from.

use crate::keys::{AddressKey, SoundingKey};
use crate::spelling::Spelled;
use crate::trial::random::Random;

/// The order in which numbers of keys come.
#[derive(Clone, Copy, Debug)]
pub enum Order {
    /// Any of so many.
    Among(u32),
    /// One of them half of the time, else any of so many.
    Skewed(u32),
    /// All unlike: no tally keeps what it has long.
    Distinct,
    /// So many in turn: with one more than a slot has rows, a tally loses most.
    Rotating(u32),
    /// The same for a while, then the next.
    Runs { longest: u32, left: u32 },
}

/// Keys in some order, spelled in one or in many ways.
#[derive(Clone, Debug)]
pub struct Source {
    pub order: Order,
    is_address: bool,
    /// Whether alike keys are spelled by various bytes.
    respells: bool,
    /// How many keys have come.
    came: u32,
}

impl Source {
    /// Any source that can be hard for tallies whose slots have so many rows.
    pub fn any(random: &mut Random, is_address: bool, rows: &[usize]) -> Source {
        Source {
            order: Source::any_order(random, rows),
            is_address,
            respells: random.percent(50),
            came: random.below(1000),
        }
    }

    fn any_order(random: &mut Random, rows: &[usize]) -> Order {
        match random.below(10) {
            0 => Order::Among(1),
            1 => Order::Among(random.within(2, 7)),
            2 => Order::Among(random.within(8, 60)),
            3 => Order::Among(random.within(61, 20_000)),
            4 => Order::Skewed(random.within(2, 2000)),
            5 | 6 => Order::Distinct,
            7 | 8 => Order::Rotating(random.pick(rows) as u32 + random.below(3)),
            _ => Order::Runs {
                longest: random.within(1, 40),
                left: 0,
            },
        }
    }

    /// About how many unlike keys a window of that size has.
    pub fn unlike(&self, size: u32) -> u32 {
        match self.order {
            Order::Among(many) | Order::Skewed(many) | Order::Rotating(many) => many.min(size),
            Order::Distinct | Order::Runs { .. } => size,
        }
    }

    /// How many keys a draw is to be among, to be much like this source.
    pub fn among(&self) -> u32 {
        match self.order {
            Order::Among(many) | Order::Skewed(many) | Order::Rotating(many) => many,
            Order::Distinct | Order::Runs { .. } => 400_000,
        }
    }

    pub fn next_key(&mut self, random: &mut Random) -> [u8; 5] {
        self.came += 1;
        let number = match &mut self.order {
            Order::Among(many) => random.below(*many),
            Order::Skewed(many) => random.below(2) * random.below(*many),
            Order::Distinct => self.came,
            Order::Rotating(many) => self.came % *many,
            Order::Runs { longest, left } => {
                if *left == 0 {
                    *left = random.within(1, *longest);
                } else {
                    self.came -= 1;
                }
                *left -= 1;
                self.came
            }
        };
        self.spell(number, random)
    }

    /// The key of that number, in some spelling.
    pub fn spell(&self, number: u32, random: &mut Random) -> [u8; 5] {
        if self.is_address {
            let mut key = AddressKey::numbered(number).bytes();
            if self.respells {
                (key[0], key[1]) = (random.byte(), random.byte());
            }
            key
        } else {
            let mut key = SoundingKey::numbered(number).bytes();
            if self.respells {
                (key[3], key[4]) = (random.byte(), random.byte());
            }
            key
        }
    }
}
