//! Where the tallies of a ladder lie, and which of them answer for a window. Numbers alone.

use crate::keeper::Need;
use crate::settings::{FINEST, MARGIN, Setting};

/// The top level of the most accurate setting.
const HIGHEST_LEVEL: usize = (FINEST + MARGIN) as usize;

/// The most blocks that a cover can have.
pub const MOST_BLOCKS: usize = 2 * (HIGHEST_LEVEL + 1);

/// What every scale has at one of its levels.
#[derive(Clone, Copy, Debug, Default)]
struct Level {
    slots: u32,
    rows: usize,
    first_row: usize,
    first_head: usize,
}

/// Where a block's tally lies in the tables.
#[derive(Clone, Copy, Debug, PartialEq, Eq)]
pub struct Slot {
    pub first_row: usize,
    pub rows: usize,
    pub head: usize,
}

/// A slot that an arrival falls into, and whether the arrival is the first of its block.
#[derive(Clone, Copy, Debug, PartialEq, Eq)]
pub struct Visit {
    pub slot: Slot,
    pub begins: bool,
}

#[derive(Clone, Debug)]
pub struct Layout {
    /// The number of the highest level, L.
    top: u32,
    scales: u32,
    levels: [Level; HIGHEST_LEVEL + 1],
    /// What one scale takes.
    each: Need,
}

impl Layout {
    pub fn new(setting: Setting) -> Layout {
        let top = setting.accuracy() + MARGIN;
        let mut levels = [Level::default(); HIGHEST_LEVEL + 1];
        let mut each = Need { rows: 0, heads: 0 };
        for level in 0..=top {
            let slots = (1 << (top - level)) + 1;
            let rows = (1 << level) * (top as usize + 1) - 1;
            levels[level as usize] = Level {
                slots,
                rows,
                first_row: each.rows,
                first_head: each.heads,
            };
            each.rows += slots as usize * rows;
            each.heads += slots as usize;
        }
        Layout {
            top,
            scales: setting.span() - top + 1,
            levels,
            each,
        }
    }

    /// What all scales take together.
    pub fn need(&self) -> Need {
        Need {
            rows: self.scales as usize * self.each.rows,
            heads: self.scales as usize * self.each.heads,
        }
    }

    /// How many rows a slot of that level has; there is none above the top level.
    pub fn rows_at(&self, level: u32) -> Option<usize> {
        (level <= self.top).then(|| self.levels[level as usize].rows)
    }

    /// The number of the highest level.
    pub fn top(&self) -> u32 {
        self.top
    }

    /// The slot of a block, at a level of a scale. Scales are counted from 0.
    fn slot(&self, scale: u32, level: u32, block: u32) -> Slot {
        let Level {
            slots,
            rows,
            first_row,
            first_head,
        } = self.levels[level as usize];
        let turn = (block % slots) as usize;
        Slot {
            first_row: scale as usize * self.each.rows + first_row + turn * rows,
            rows,
            head: scale as usize * self.each.heads + first_head + turn,
        }
    }

    /// The slots that an arrival falls into: one at each level of each scale.
    pub fn visits(&self, arrival: u32) -> impl Iterator<Item = Visit> {
        (0..self.scales)
            .flat_map(|scale| (0..=self.top).map(move |level| (scale, level)))
            .map(move |(scale, level)| {
                // A block of level j at scale i has 2^(i + j) arrivals.
                let size = scale + level;
                let block = arrival >> size;
                Visit {
                    slot: self.slot(scale, level, block),
                    begins: block << size == arrival,
                }
            })
    }

    /// The scale that answers for a window of that size.
    fn scale_for(&self, size: u32) -> u32 {
        (0..self.scales - 1)
            .find(|scale| size <= 1 << (scale + self.top))
            .unwrap_or(self.scales - 1)
    }

    /// The blocks that cover the newest `size` of so many arrivals.
    pub fn cover(&self, arrivals: u32, size: u32) -> Cover<'_> {
        let scale = self.scale_for(size);
        let begin = arrivals.saturating_sub(size);
        let place = begin.div_ceil(1 << scale);
        let end = arrivals >> scale;
        Cover {
            layout: self,
            scale,
            ignored: (place << scale) - begin + (arrivals - (end << scale)),
            place,
            end,
        }
    }
}

/// A walk over the blocks of a window, oldest first. Places are counted in the scale's smallest blocks.
#[derive(Clone, Debug)]
pub struct Cover<'a> {
    layout: &'a Layout,
    scale: u32,
    place: u32,
    end: u32,
    ignored: u32,
}

impl Cover<'_> {
    /// How many arrivals at the window's ends lie in none of the blocks.
    pub fn ignored(&self) -> u32 {
        self.ignored
    }
}

impl Iterator for Cover<'_> {
    type Item = Slot;

    /// The largest block that starts at this place and ends in time.
    fn next(&mut self) -> Option<Slot> {
        let left = self.end.checked_sub(self.place)?.checked_ilog2()?;
        let level = left.min(self.place.trailing_zeros()).min(self.layout.top);
        let slot = self.layout.slot(self.scale, level, self.place >> level);
        self.place += 1 << level;
        Some(slot)
    }
}

#[cfg(test)]
mod tests {
    use super::*;

    fn layout(accuracy: u32, span: u32) -> Layout {
        Layout::new(Setting::new(accuracy, span).unwrap())
    }

    #[test]
    fn a_scale_of_accuracy_one_lies_as_in_the_table() {
        let layout = layout(1, 4);
        let levels = [
            (17, 4, 0, 0),
            (9, 9, 68, 17),
            (5, 19, 149, 26),
            (3, 39, 244, 31),
            (2, 79, 361, 34),
        ];
        for (level, expected) in layout.levels.iter().zip(levels) {
            let Level {
                slots,
                rows,
                first_row,
                first_head,
            } = *level;
            assert_eq!((slots, rows, first_row, first_head), expected);
        }
        assert_eq!(
            layout.need(),
            Need {
                rows: 519,
                heads: 36
            }
        );
    }

    #[test]
    fn a_scale_takes_what_the_formulas_say() {
        for accuracy in 1..=FINEST {
            let top = accuracy as usize + 3;
            let each = layout(accuracy, accuracy + 3).need();
            let rows = (top + 1) * (top + 1) * (1 << top) + top * (2 << top) - 2 * top - 1;
            assert_eq!(each.rows, rows);
            assert_eq!(each.heads, (2 << top) + top);
        }
        let need = layout(6, 20).need();
        assert_eq!((need.rows, need.heads), (724_764, 12_396));
    }

    #[test]
    fn the_cover_of_the_newest_ninety_of_a_hundred() {
        let layout = layout(1, 7);
        let cover = layout.cover(100, 90);
        assert_eq!(cover.ignored(), 10);
        let sizes = cover.map(|slot| slot.rows).collect::<Vec<_>>();
        assert_eq!(sizes, [9, 19, 19]);
    }

    #[test]
    fn covers_fill_their_windows() {
        for accuracy in [1, 2] {
            let layout = layout(accuracy, 7);
            for arrivals in 0..300 {
                for size in 0..=arrivals.min(128) {
                    let cover = layout.cover(arrivals, size);
                    let unit = 1 << cover.scale;
                    assert!(cover.ignored() == 0 || cover.ignored() <= 2 * (unit - 1));
                    let covered = u32::try_from(
                        cover
                            .clone()
                            .map(|slot| (slot.rows + 1) / (layout.top as usize + 1))
                            .sum::<usize>(),
                    )
                    .unwrap();
                    assert_eq!(covered * unit + cover.ignored(), size);
                    assert!(cover.count() <= 2 * (layout.top as usize + 1));
                }
            }
        }
    }
}
