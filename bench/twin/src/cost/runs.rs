//! Lists of windows whose keys come in runs, as readings at a berth do.

use std::io;

use crate::cost::calls::{Setup, cell};
use crate::cost::pair::{Folders, Pair};
use crate::cost::table::{grouped, table};
use crate::keys::SoundingKey;
use crate::requests::Request;
use crate::settings::Setting;
use crate::spelling::Spelled;

/// So often each key comes in a row.
const RUN: u32 = 64;

/// So many puts, and their answers, fit into the pipes.
const MOST_PUTS: usize = 4000;

fn put(place: u32) -> Request {
    Request {
        op: b'P',
        key: SoundingKey::numbered(place / RUN).bytes(),
        small: 0,
        what: 0,
        number: 0,
    }
}

/// The row of the table.
fn measure_keeper(folders: &Folders, is_ladder: bool, setting: Setting) -> io::Result<Vec<String>> {
    let window = setting.capacity() - 1;
    let setup = Setup {
        is_ladder,
        setting,
        keys: window.div_ceil(RUN),
    };
    let mut pair = Pair::start(folders)?;
    pair.time(&setup.header())?;
    let puts: Vec<Request> = (0..window).map(put).collect();
    for piece in puts.chunks(MOST_PUTS) {
        pair.time(&setup.requests(piece, piece.len() as u64))?;
    }
    let list = setup.list(&mut pair)?;
    pair.end()?;
    Ok(vec![
        setup.name().to_owned(),
        setting.accuracy().to_string(),
        setting.span().to_string(),
        grouped(window.into()),
        grouped(setup.keys.into()),
        cell(list),
    ])
}

/// The table of nanoseconds per list. Each of its rows is told as soon as it is there.
pub fn measure(folders: &Folders, tell: impl Fn(&[String])) -> io::Result<String> {
    let mut rows = Vec::new();
    for is_ladder in [true, false] {
        for span in [9, 14] {
            let setting = Setting::new(1, span).map_err(io::Error::other)?;
            let row = measure_keeper(folders, is_ladder, setting)?;
            tell(&row);
            rows.push(row);
        }
    }
    let titles = ["keeper", "a", "K", "window", "unlike keys", "list"];
    Ok(table(&titles, &rows))
}
