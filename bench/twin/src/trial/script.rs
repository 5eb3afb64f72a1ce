//! Writes requests, and follows what they do to the figures so that the next ones can be aimed at edges.

use crate::keeper::{Keeper, MOST_PUTS, Need};
use crate::ladder::Ladder;
use crate::requests::Request;
use crate::ring::Ring;
use crate::settings::Setting;

#[derive(Clone, Copy, Debug, PartialEq, Eq)]
pub enum State {
    Keeping,
    Filling(u32),
    Sliding,
}

/// An input of `replay`, as far as it is written.
#[derive(Clone, Debug)]
pub struct Script {
    pub bytes: Vec<u8>,
    pub setting: Setting,
    pub is_ladder: bool,
    pub is_address: bool,
    pub need: Need,
    pub state: State,
    pub puts: u32,
    pub size: u32,
    lent: Need,
}

impl Script {
    pub fn new(setting: Setting, is_ladder: bool, is_address: bool) -> Script {
        let need = if is_ladder {
            Ladder::fresh(setting).need()
        } else {
            Ring::fresh(setting).need()
        };
        let header = [
            if is_ladder { b'L' } else { b'R' },
            if is_address { b'A' } else { b'S' },
            setting.accuracy() as u8,
            setting.span() as u8,
        ];
        Script {
            bytes: header.to_vec(),
            setting,
            is_ladder,
            is_address,
            need,
            state: State::Keeping,
            puts: 0,
            size: 0,
            lent: need,
        }
    }

    /// The least threshold that is answered now.
    pub fn least_threshold(&self) -> u32 {
        self.size.div_ceil(1 << self.setting.accuracy()).max(1)
    }

    pub fn write(&mut self, request: Request) {
        self.bytes.extend(request.bytes());
    }

    /// A request that has a number and nothing else.
    pub fn number(&mut self, op: u8, number: u32) {
        self.write(Request {
            op,
            key: [0; 5],
            small: 0,
            what: 0,
            number,
        });
    }

    fn keyed(&mut self, op: u8, key: [u8; 5]) {
        self.write(Request {
            op,
            key,
            small: 0,
            what: 0,
            number: 0,
        });
    }

    pub fn count(&mut self, key: [u8; 5]) {
        self.keyed(b'C', key);
    }

    pub fn verdict(&mut self, key: [u8; 5], class: u8) {
        self.write(Request {
            op: b'V',
            key,
            small: class,
            what: 0,
            number: 0,
        });
    }

    pub fn spoil(&mut self, place: u32, number: u32) {
        let [p0, p1, p2, p3] = place.to_le_bytes();
        self.write(Request {
            op: b'I',
            key: [p0, p1, p2, p3, 0],
            small: 0,
            what: 0,
            number,
        });
    }

    pub fn fix(&mut self, goal: u32) {
        self.number(b'F', goal);
        let fits = (1..self.setting.capacity()).contains(&goal);
        if self.state == State::Keeping && self.size == 0 && fits {
            self.state = State::Filling(goal);
        }
    }

    pub fn turn(&mut self) {
        self.number(b'T', 0);
        if self.state == State::Filling(self.size) {
            self.state = State::Sliding;
        }
    }

    pub fn drop_oldest(&mut self) {
        self.number(b'D', 0);
        self.dropped(1);
    }

    pub fn put(&mut self, key: [u8; 5]) {
        self.keyed(b'P', key);
        if self.state != State::Sliding && self.exists(key) {
            self.came(1);
        }
    }

    pub fn slide(&mut self, key: [u8; 5]) {
        self.keyed(b'S', key);
        if self.state == State::Sliding && self.exists(key) {
            self.came(1);
        }
    }

    /// A key comes, by the call that the state has.
    pub fn bring(&mut self, key: [u8; 5]) {
        if self.state == State::Sliding {
            self.slide(key);
        } else {
            self.put(key);
        }
    }

    /// So many calls at once; `among` is the number of keys that are drawn among, or a threshold.
    pub fn repeat(&mut self, what: u8, number: u32, among: u32, small: u8) {
        let [d0, d1, d2, d3] = among.to_le_bytes();
        self.write(Request {
            op: b'X',
            key: [d0, d1, d2, d3, small],
            small,
            what,
            number,
        });
        match what {
            b'P' => self.came(number),
            b'D' => self.dropped(number),
            _ => {}
        }
    }

    /// Lends so many of the rows, heads or places of the list.
    pub fn lend(&mut self, op: u8, number: u32) {
        self.number(op, number);
        match op {
            b'R' => self.lent.rows = number as usize,
            b'H' => self.lent.heads = number as usize,
            _ => {}
        }
    }

    /// How large the window can become now.
    pub fn limit(&self) -> u32 {
        match self.state {
            State::Keeping => self.setting.capacity(),
            State::Filling(goal) => goal,
            State::Sliding => self.size,
        }
    }

    fn exists(&self, key: [u8; 5]) -> bool {
        self.is_address || key[2] <= 6
    }

    fn came(&mut self, many: u32) {
        if self.lent.rows < self.need.rows || self.lent.heads < self.need.heads {
            return;
        }
        let many = many.min(MOST_PUTS - self.puts);
        if self.state == State::Sliding {
            self.puts += many;
        } else {
            let many = many.min(self.limit() - self.size);
            self.puts += many;
            self.size += many;
        }
    }

    fn dropped(&mut self, many: u32) {
        if self.state == State::Keeping {
            self.size = self.size.saturating_sub(many);
        }
    }
}

#[cfg(test)]
mod tests {
    use super::*;
    use crate::replay;
    use crate::settings::SettingRefusal;

    /// What the script's own answers say of the figures at its end.
    fn figures(script: &Script) -> String {
        let mut script = script.clone();
        script.number(b'G', 0);
        let mut output = Vec::new();
        replay::run(&script.bytes[..], &mut output).unwrap();
        let text = String::from_utf8(output).unwrap();
        text.lines().last().unwrap_or_default().to_owned()
    }

    #[test]
    fn the_figures_are_followed() -> Result<(), SettingRefusal> {
        let mut script = Script::new(Setting::new(1, 4)?, true, false);
        let check = |script: &Script| {
            let expected = format!("figures {} {}", script.puts, script.size);
            assert_eq!(figures(script), expected);
        };
        script.repeat(b'P', 20, 3, 0);
        check(&script);
        script.repeat(b'D', 5, 0, 0);
        script.put(*b"SD\x07\0\0");
        script.lend(b'H', 35);
        script.put([0; 5]);
        script.slide([0; 5]);
        check(&script);
        script.lend(b'H', 36);
        script.fix(3);
        script.repeat(b'D', 50, 0, 0);
        script.fix(16);
        script.fix(3);
        script.turn();
        script.repeat(b'P', 5, 3, 0);
        script.drop_oldest();
        check(&script);
        script.turn();
        script.bring([1; 5]);
        script.put([1; 5]);
        script.repeat(b'P', 7, 3, 0);
        check(&script);
        assert_eq!((script.puts, script.size), (27, 3));
        Ok(())
    }
}
