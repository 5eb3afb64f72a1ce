//! A trace in the making: a script, where its keys come from, and questions about its window.

use crate::layout::Layout;
use crate::settings::{FINEST, MARGIN, Setting, WIDEST};
use crate::trial::random::Random;
use crate::trial::script::{Script, State};
use crate::trial::sources::Source;

/// How many keys are remembered, to be asked for later.
const REMEMBERED: usize = 24;

/// About so many rows may be looked at by the lists and digests of one trace.
const BUDGET: u64 = 12_000_000;

/// About so many rows may be looked at by the puts of one burst.
const BURST: u64 = 40_000_000;

#[derive(Debug)]
pub struct Trace {
    pub script: Script,
    pub source: Source,
    pub random: Random,
    /// The rows of a slot at each level.
    pub rows: Vec<usize>,
    remembered: Vec<[u8; 5]>,
    budget: u64,
}

/// A setting whose span is mostly small.
pub fn any_setting(random: &mut Random, widest: u32) -> Setting {
    loop {
        let accuracy = random.within(1, FINEST);
        let span = random.within(accuracy + MARGIN, widest.max(accuracy + MARGIN));
        if let Ok(setting) = Setting::new(accuracy, span) {
            return setting;
        }
    }
}

/// A widest span: mostly small, for small windows turn soonest.
pub fn any_widest(random: &mut Random) -> u32 {
    if random.percent(88) { 12 } else { WIDEST }
}

impl Trace {
    pub fn new(mut random: Random, setting: Setting) -> Trace {
        let (is_ladder, is_address) = (random.percent(65), random.percent(50));
        let script = Script::new(setting, is_ladder, is_address);
        let layout = Layout::new(setting);
        let rows: Vec<usize> = (0..).map_while(|level| layout.rows_at(level)).collect();
        let source = Source::any(&mut random, is_address, &rows);
        Trace {
            script,
            source,
            random,
            rows,
            remembered: Vec::new(),
            budget: BUDGET,
        }
    }

    pub fn change_source(&mut self) {
        self.source = Source::any(&mut self.random, self.script.is_address, &self.rows);
    }

    /// The next key of the source. Some are remembered, the first ones longest.
    pub fn next_key(&mut self) -> [u8; 5] {
        let key = self.source.next_key(&mut self.random);
        if self.remembered.len() < REMEMBERED {
            self.remembered.push(key);
        } else if self.random.percent(20) {
            let place = self.random.within(4, REMEMBERED as u32 - 1);
            self.remembered[place as usize] = key;
        }
        key
    }

    /// A key comes, by the call that the state has.
    pub fn bring(&mut self) {
        let key = self.next_key();
        self.script.bring(key);
    }

    /// A key that came, or may come, or never does.
    pub fn asked_key(&mut self) -> [u8; 5] {
        if !self.remembered.is_empty() && self.random.percent(60) {
            return self.random.pick(&self.remembered);
        }
        let number = match self.random.below(3) {
            0 => self.random.below(8),
            1 => self.random.below(30_000),
            _ => 450_000 + self.random.below(100),
        };
        self.source.spell(number, &mut self.random)
    }

    pub fn ask_count(&mut self) {
        let key = self.asked_key();
        self.script.count(key);
    }

    /// A verdict on a class, 0 and 7 included.
    pub fn ask_verdict(&mut self) {
        let key = self.asked_key();
        let class = self.random.below(8) as u8;
        self.script.verdict(key, class);
    }

    /// A list at a threshold, mostly near the least that is answered.
    pub fn ask_list(&mut self) {
        let least = self.script.least_threshold();
        let threshold = match self.random.below(13) {
            0 => 0,
            1 | 2 => least - 1,
            3..=5 => least,
            6 => least + 1,
            7 => self.script.size,
            8 => self.script.size / 2,
            9 => self.random.within(1, self.script.size.max(1)),
            10 => self.random.next_number() as u32,
            11 => self.high_threshold(),
            _ => least + self.random.below(20),
        };
        if threshold < least || self.affords(self.list_cost()) {
            self.script.number(b'L', threshold);
        }
    }

    /// A threshold that is too high for 32 bits once it is multiplied.
    fn high_threshold(&mut self) -> u32 {
        let power = 32 - self.script.setting.accuracy();
        let high = 1 << self.random.within(power, 31);
        high + self.random.below(2)
    }

    /// The figures, and at times the digest of the tables.
    pub fn ask_figures(&mut self) {
        self.script.number(b'G', 0);
        let cost = (self.script.need.rows + self.script.need.heads) as u64 * 10;
        if self.random.percent(50) && self.affords(cost) {
            self.script.number(b'W', 0);
        }
    }

    /// A few questions of every kind.
    pub fn ask_all(&mut self) {
        for _ in 0..self.random.within(1, 4) {
            self.ask_count();
        }
        self.ask_list();
        if self.random.percent(60) {
            self.ask_verdict();
        }
        self.ask_figures();
    }

    /// Repeated questions, some of which are refused.
    pub fn ask_repeated(&mut self) {
        let among = self.source.among();
        let small = self.random.byte();
        match self.random.below(3) {
            0 => self
                .script
                .repeat(b'C', self.random.within(0, 30), among, small),
            1 => self
                .script
                .repeat(b'V', self.random.within(1, 10), among, small),
            _ => {
                let threshold = if self.random.percent(20) {
                    self.high_threshold()
                } else {
                    self.script.least_threshold() - self.random.below(2)
                };
                if self.affords(2 * self.list_cost()) {
                    self.script.repeat(b'L', 2, threshold, small);
                }
            }
        }
    }

    /// Goes to a window of that size, the last steps one by one, where calls can lead there.
    pub fn go_to(&mut self, size: u32) {
        let near = self.random.within(1, 40);
        let size = size.min(self.script.limit());
        if self.script.size + near < size {
            let many = size - near - self.script.size;
            self.burst(many);
        }
        if size + near < self.script.size {
            self.script
                .repeat(b'D', self.script.size - near - size, 0, 0);
        }
        for _ in 0..near {
            match self.script.size.cmp(&size) {
                std::cmp::Ordering::Less => self.bring(),
                std::cmp::Ordering::Equal => break,
                std::cmp::Ordering::Greater => self.script.drop_oldest(),
            }
        }
    }

    /// Many keys come: one by one from the source where they are not too many, else drawn at once.
    pub fn burst(&mut self, many: u32) {
        if many <= 600 && self.random.percent(70) {
            for _ in 0..many {
                self.bring();
            }
        } else {
            self.put_drawn(many, self.source.among());
        }
    }

    /// So many keys come at once, drawn among so many or fewer: beside many unlike keys a ladder's step looks at many
    /// rows.
    pub fn put_drawn(&mut self, many: u32, mut among: u32) {
        while among > 1 && u64::from(many) * self.put_cost(among) > BURST {
            among /= 2;
        }
        self.script.repeat(b'P', many, among, 0);
    }

    /// About how many rows one put looks at.
    fn put_cost(&self, among: u32) -> u64 {
        if !self.script.is_ladder {
            return 1;
        }
        let scales = self.script.setting.span() as usize + 2 - self.rows.len();
        let rows = self.rows.iter().map(|rows| (*rows).min(among as usize));
        (scales * rows.sum::<usize>()) as u64
    }

    pub fn is_sliding(&self) -> bool {
        self.script.state == State::Sliding
    }

    /// About how many rows a list looks at.
    fn list_cost(&self) -> u64 {
        let unlike = u64::from(self.source.unlike(self.script.size)).max(64);
        let all = if self.script.is_ladder {
            let most = self.rows.last().copied().unwrap_or(0) as u64 + 1;
            most.min(u64::from(self.script.size))
        } else {
            u64::from(self.script.size)
        };
        2 * all * unlike.min(all)
    }

    /// Takes the cost from what is left, if it is there.
    fn affords(&mut self, cost: u64) -> bool {
        let left = self.budget.checked_sub(cost);
        self.budget = left.unwrap_or(self.budget);
        left.is_some()
    }
}
