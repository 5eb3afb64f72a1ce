//! One put and one count in windows of all sizes.

use std::io;

use crate::cost::calls::Setup;
use crate::cost::pair::{Each, Folders};
use crate::settings::{MARGIN, Setting, WIDEST};

const ACCURACY: u32 = 1;
const KEYS: u32 = 100;
const ROUNDS: u32 = 3;

/// What the calls cost in a window of that size.
#[derive(Clone, Copy, Debug)]
pub struct Point {
    pub window: u32,
    pub put: Each,
    pub count: Each,
}

/// The points of a keeper, by the size of the sliding window.
pub fn points(folders: &Folders, is_ladder: bool) -> io::Result<Vec<Point>> {
    let mut points = Vec::new();
    for span in ACCURACY + MARGIN..=WIDEST {
        let setup = Setup {
            is_ladder,
            setting: Setting::new(ACCURACY, span).map_err(io::Error::other)?,
            keys: KEYS,
        };
        let (mut pair, _) = setup.sliding(folders)?;
        points.push(Point {
            window: setup.window(),
            put: setup.slide(&mut pair, ROUNDS)?,
            count: setup.count(&mut pair, ROUNDS)?,
        });
        pair.end()?;
    }
    Ok(points)
}
