//! The program `bedwatch`: verdicts on the berth from the latest readings.

use std::io::{self, BufRead, Write};

use crate::bands::{Band, LIMITS};
use crate::keys::SoundingKey;
use crate::ladder::Ladder;
use crate::latest::Latest;
use crate::lines::Lines;
use crate::sentences::read_depth;
use crate::settings::Setting;

const ACCURACY: u32 = 1;
const SPAN: u32 = 9;

/// So many readings the window holds at most.
const GOAL: u32 = 256;

/// The sounder of the berth.
const BERTH: [u8; 2] = *b"SD";

/// Reads lines to the end of the input, tells which are refused, and then judges.
pub fn run(input: impl BufRead, mut output: impl Write) -> io::Result<()> {
    let setting = Setting::new(ACCURACY, SPAN).map_err(io::Error::other)?;
    let blank = SoundingKey {
        sounder: [0; 2],
        band: Band::LOWEST,
    };
    let mut latest = Latest::<Ladder, _>::new(setting, GOAL, blank).map_err(io::Error::other)?;
    let mut lines = Lines::new(input);
    while let Some((number, line)) = lines.next_line()? {
        match read_depth(line) {
            Ok(reading) => latest
                .put(SoundingKey {
                    sounder: reading.sounder,
                    band: Band::of(reading.clearance),
                })
                .map_err(io::Error::other)?,
            Err(refusal) => writeln!(output, "line {number} {refusal}")?,
        }
    }
    judge(&latest, &mut output)?;
    output.flush()
}

fn judge(latest: &Latest<Ladder, SoundingKey>, mut output: impl Write) -> io::Result<()> {
    writeln!(output, "readings {}", latest.size())?;
    for class in 1..=LIMITS.len() as u8 {
        let judgement = latest.verdict(BERTH, class).map_err(io::Error::other)?;
        writeln!(output, "class {class} {judgement}")?;
    }
    Ok(())
}

#[cfg(test)]
mod tests {
    use super::*;

    fn told(input: &[u8]) -> String {
        let mut output = Vec::new();
        run(input, &mut output).unwrap();
        String::from_utf8(output).unwrap()
    }

    fn reading(depth: &str, offset: &str) -> String {
        let body = format!("SDDPT,{depth},-{offset}");
        let sum = body.bytes().fold(0, |sum, byte| sum ^ byte);
        format!("${body}*{sum:02X}\r\n")
    }

    #[test]
    fn one_short_reading_of_five() {
        let input = reading("4", "3.6") + &reading("4.5", "3.6").repeat(4);
        let clear = (1..6).map(|class| format!("class {class} clear 1 1\n"));
        let expected =
            "readings 5\n".to_owned() + &clear.collect::<String>() + "class 6 held 5 5\n";
        assert_eq!(told(input.as_bytes()), expected);
    }

    #[test]
    fn no_reading_leaves_every_class_unsure() {
        let unsure = (1..7).map(|class| format!("class {class} unsure 0 0\n"));
        let verdicts = "readings 0\n".to_owned() + &unsure.collect::<String>();
        assert_eq!(told(b""), verdicts);
        assert_eq!(
            told(b"\n$SDDPT*57"),
            "line 1 refused 12 at 1\nline 2 refused 15 at 7\n".to_owned() + &verdicts
        );
    }

    #[test]
    fn the_window_holds_the_latest_256() {
        let input = reading("4", "3.6").repeat(300) + &reading("9", "3.6").repeat(256);
        assert!(told(input.as_bytes()).starts_with("readings 256\nclass 1 clear 0 16\n"));
    }
}
