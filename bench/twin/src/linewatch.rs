//! The program `linewatch`: which kinds of sentence are frequent among the latest.

use std::io::{self, BufRead, Write};

use crate::keeper::{Bracket, Entry};
use crate::keys::AddressKey;
use crate::latest::Latest;
use crate::lines::Lines;
use crate::ring::Ring;
use crate::sentences::Sentence;
use crate::settings::Setting;

const ACCURACY: u32 = 3;
const SPAN: u32 = 6;

/// So many addresses the window holds at most.
const GOAL: u32 = 63;

const BLANK: AddressKey = AddressKey([0; 5]);

/// Reads lines to the end of the input, tells which are refused, and then lists the kinds.
pub fn run(input: impl BufRead, mut output: impl Write) -> io::Result<()> {
    let setting = Setting::new(ACCURACY, SPAN).map_err(io::Error::other)?;
    let mut latest = Latest::<Ring, _>::new(setting, GOAL, BLANK).map_err(io::Error::other)?;
    let mut lines = Lines::new(input);
    while let Some((number, line)) = lines.next_line()? {
        match Sentence::read(line) {
            Ok(sentence) => latest.put(sentence.address()).map_err(io::Error::other)?,
            Err(refusal) => writeln!(output, "line {number} {refusal}")?,
        }
    }
    list_kinds(&latest, &mut output)?;
    output.flush()
}

fn list_kinds(latest: &Latest<Ring, AddressKey>, mut output: impl Write) -> io::Result<()> {
    let mut list = [Entry {
        key: BLANK,
        bracket: Bracket::default(),
    }; GOAL as usize];
    // The least threshold that the accuracy answers.
    let threshold = latest.size().div_ceil(1 << ACCURACY).max(1);
    let many = latest
        .list(threshold, &mut list)
        .map_err(io::Error::other)?;
    for Entry { key, bracket } in &list[..many] {
        output.write_all(b"kind ")?;
        output.write_all(&key.kind())?;
        writeln!(output, " {} {}", bracket.floor, bracket.ceiling)?;
    }
    Ok(())
}

#[cfg(test)]
mod tests {
    use super::*;

    fn told(input: &[u8]) -> String {
        let mut output = Vec::new();
        run(input, &mut output).unwrap();
        String::from_utf8(output).unwrap()
    }

    #[test]
    fn kinds_come_by_their_first_places() {
        let input = b"$SDDPT*57\n$SDDBT*45\r\n$SDDPT,*7B\n$SDDPT,*7C\n";
        assert_eq!(
            told(input),
            "line 4 refused 13 at 9\nkind DPT 2 2\nkind DBT 1 1\n"
        );
    }

    #[test]
    fn no_sentence_lists_nothing() {
        assert_eq!(told(b""), "");
        assert_eq!(told(b"\n"), "line 1 refused 12 at 1\n");
    }
}
