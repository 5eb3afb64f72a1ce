//! What a ladder's tables take, beside a stored window.

use crate::cost::table::{grouped, table};
use crate::keys::SoundingKey;
use crate::layout::Layout;
use crate::settings::Setting;
use crate::tally::{Head, Row};

/// The table of rows, heads and bytes.
pub fn measure() -> String {
    let mut rows = Vec::new();
    for accuracy in [1, 3, 6] {
        for span in [9, 14, 20] {
            if let Ok(setting) = Setting::new(accuracy, span) {
                rows.push(row(setting));
            }
        }
    }
    let titles = [
        "a",
        "K",
        "rows",
        "heads",
        "bytes of the ladder",
        "bytes of 2^K rows (the ring)",
        "bytes of 2^K bare keys",
    ];
    table(&titles, &rows)
}

fn row(setting: Setting) -> Vec<String> {
    let need = Layout::new(setting).need();
    let keys = setting.capacity() as usize;
    let numbers = [
        setting.accuracy() as usize,
        setting.span() as usize,
        need.rows,
        need.heads,
        need.rows * size_of::<Row<SoundingKey>>() + need.heads * size_of::<Head>(),
        keys * size_of::<Row<SoundingKey>>(),
        keys * size_of::<SoundingKey>(),
    ];
    numbers.map(|number| grouped(number as u64)).to_vec()
}

#[cfg(test)]
mod tests {
    use super::*;

    #[test]
    fn a_row_has_eight_bytes_and_so_has_a_head() {
        assert_eq!(size_of::<Row<SoundingKey>>(), 8);
        assert_eq!(size_of::<Head>(), 8);
    }
}
