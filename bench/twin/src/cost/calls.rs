//! What one call costs, through `replay`.

use std::io;
use std::time::Duration;

use crate::cost::pair::{Each, Folders, Pair, Times, Work};
use crate::cost::table::{grouped, nanos, table};
use crate::layout::Layout;
use crate::requests::Request;
use crate::settings::Setting;

/// Samples of each call.
const ROUNDS: u32 = 5;

/// The class whose verdict is asked: the one that takes the most counts.
const HIGHEST_CLASS: u8 = 6;

/// A window that would look at more rows than this while it is filled is made smaller.
const MOST_LOOKS: u64 = 10_000_000_000;
const SMALLER: u32 = (1 << 16) - 1;

/// A list of a ring that would look at more rows than this takes longer than five seconds.
const MOST_LISTED: u64 = 5_000_000_000;

/// So many pairs of requests, and their answers, fit into the pipes.
const MOST_PAIRS: u32 = 2000;

/// A window whose filling takes this long is filled once.
const LONG_FILL: Duration = Duration::from_millis(400);

/// A keeper of sounding keys, and how many unlike ones come.
#[derive(Clone, Copy, Debug)]
pub struct Setup {
    pub is_ladder: bool,
    pub setting: Setting,
    pub keys: u32,
}

impl Setup {
    /// How the tables call it.
    pub fn name(self) -> &'static str {
        if self.is_ladder { "ladder" } else { "ring" }
    }

    pub fn header(self) -> Work {
        let keeper = if self.is_ladder { b'L' } else { b'R' };
        let (accuracy, span) = (self.setting.accuracy() as u8, self.setting.span() as u8);
        Work {
            bytes: vec![keeper, b'S', accuracy, span],
            answers: 0,
            calls: 0,
        }
    }

    /// About how many rows one put looks at.
    fn looks(self) -> u64 {
        if !self.is_ladder {
            return 1;
        }
        let layout = Layout::new(self.setting);
        let scales = u64::from(self.setting.span() - layout.top() + 1);
        let rows = (0..).map_while(|level| layout.rows_at(level));
        let looks: u64 = rows.map(|rows| (rows as u64).min(self.keys.into())).sum();
        scales * looks
    }

    /// The size of the fixed window.
    pub fn window(self) -> u32 {
        let widest = self.setting.capacity() - 1;
        if u64::from(widest) * self.looks() > MOST_LOOKS {
            widest.min(SMALLER)
        } else {
            widest
        }
    }

    /// Whether a list takes no longer than one can wait.
    fn is_listed(self) -> bool {
        let (window, keys) = (u64::from(self.window()), u64::from(self.keys));
        self.is_ladder || 4 * window * keys.min(window) <= MOST_LISTED
    }

    pub fn requests(self, requests: &[Request], calls: u64) -> Work {
        Work {
            bytes: requests.iter().flat_map(Request::bytes).collect(),
            answers: requests.len(),
            calls,
        }
    }

    /// So many calls at once.
    fn repeat(self, what: u8, among: u32, number: u32) -> Work {
        self.requests(&[repeat(what, among, number)], number.into())
    }

    /// A pair whose window slides, and what filling it took.
    pub fn sliding(self, folders: &Folders) -> io::Result<(Pair, Times)> {
        let window = self.window();
        let plain = |op| Request {
            op,
            key: [0; 5],
            small: 0,
            what: 0,
            number: window,
        };
        let mut pair = Pair::start(folders)?;
        pair.time(&self.header())?;
        pair.time(&self.requests(&[plain(b'F')], 1))?;
        let filling = pair.time(&self.repeat(b'P', self.keys, window))?;
        pair.time(&self.requests(&[plain(b'T'), plain(b'G')], 2))?;
        Ok((pair, filling))
    }

    pub fn slide(self, pair: &mut Pair, rounds: u32) -> io::Result<Each> {
        pair.best(rounds, u32::MAX / 64, |number| {
            self.repeat(b'P', self.keys, number)
        })
    }

    pub fn count(self, pair: &mut Pair, rounds: u32) -> io::Result<Each> {
        pair.best(rounds, u32::MAX, |number| {
            self.repeat(b'C', self.keys, number)
        })
    }

    fn verdict(self, pair: &mut Pair) -> io::Result<Each> {
        pair.best(ROUNDS, u32::MAX, |number| {
            self.repeat(b'V', self.keys, number)
        })
    }

    pub fn list(self, pair: &mut Pair) -> io::Result<Option<Each>> {
        if !self.is_listed() {
            return Ok(None);
        }
        let threshold = self.window().div_ceil(1 << self.setting.accuracy());
        pair.best(ROUNDS, u32::MAX, |number| {
            self.repeat(b'L', threshold, number)
        })
        .map(Some)
    }

    /// A put of a window that is filled and emptied again and again; each key's drop is in it too.
    fn fill(self, folders: &Folders) -> io::Result<Each> {
        let window = self.window();
        let mut pair = Pair::start(folders)?;
        pair.time(&self.header())?;
        let each = pair.best(ROUNDS, MOST_PAIRS, |pairs| {
            let both = [repeat(b'P', self.keys, window), repeat(b'D', 0, window)];
            let calls = u64::from(pairs) * u64::from(window);
            self.requests(&both.repeat(pairs as usize), calls)
        })?;
        pair.end()?;
        Ok(each)
    }

    /// The row of the table.
    fn measure(self, folders: &Folders) -> io::Result<Vec<String>> {
        let (mut pair, filling) = self.sliding(folders)?;
        let filling = if filling.longer() < LONG_FILL {
            self.fill(folders)?
        } else {
            filling.each(self.window().into())
        };
        let slide = self.slide(&mut pair, ROUNDS)?;
        let count = self.count(&mut pair, ROUNDS)?;
        let list = self.list(&mut pair)?;
        let verdict = self.verdict(&mut pair)?;
        pair.end()?;
        Ok(vec![
            self.name().to_owned(),
            self.setting.accuracy().to_string(),
            self.setting.span().to_string(),
            grouped(self.window().into()),
            grouped(self.keys.into()),
            cell(Some(filling)),
            cell(Some(slide)),
            cell(Some(count)),
            cell(list),
            cell(Some(verdict)),
        ])
    }
}

fn repeat(what: u8, among: u32, number: u32) -> Request {
    let [d0, d1, d2, d3] = among.to_le_bytes();
    Request {
        op: b'X',
        key: [d0, d1, d2, d3, 0],
        small: HIGHEST_CLASS - 1,
        what,
        number,
    }
}

/// What both took, and the ratio.
pub fn cell(each: Option<Each>) -> String {
    each.map_or_else(
        || "skipped".to_owned(),
        |each| {
            format!(
                "{} / {} ({:.2})",
                nanos(each.other),
                nanos(each.twin),
                each.ratio()
            )
        },
    )
}

/// The ladder at several accuracies, and the ring at one, each with few, some and many keys.
fn setups() -> Vec<Setup> {
    let mut setups = Vec::new();
    for (is_ladder, accuracy) in [(true, 1), (true, 3), (true, 6), (false, 1)] {
        for span in [9, 14, 20] {
            let Ok(setting) = Setting::new(accuracy, span) else {
                continue;
            };
            setups.extend([7, 100, 10_000].map(|keys| Setup {
                is_ladder,
                setting,
                keys,
            }));
        }
    }
    setups
}

/// The table of nanoseconds per call. Each of its rows is told as soon as it is there.
pub fn measure(folders: &Folders, tell: impl Fn(&[String])) -> io::Result<String> {
    let mut rows = Vec::new();
    for setup in setups() {
        let row = setup.measure(folders)?;
        tell(&row);
        rows.push(row);
    }
    let titles = [
        "keeper",
        "a",
        "K",
        "window",
        "unlike keys",
        "put, filling",
        "put, sliding",
        "count",
        "list",
        "verdict",
    ];
    Ok(table(&titles, &rows))
}
