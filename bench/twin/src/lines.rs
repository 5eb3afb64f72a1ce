//! Cuts a stream of bytes into numbered lines.

use std::io::{self, BufRead, Read};

/// So many lines count; what follows them is not looked at.
pub const MOST_LINES: u64 = 1_000_000;

/// So many bytes of a line are kept: the 81st tells that it is too long, and the 82nd may still turn out to be the
/// carriage return of the line's end.
const KEPT: usize = 82;

/// The lines of an input, one at a time.
#[derive(Debug)]
pub struct Lines<R> {
    input: R,
    line: Vec<u8>,
    number: u64,
}

impl<R: BufRead> Lines<R> {
    pub fn new(input: R) -> Lines<R> {
        Lines {
            input,
            line: Vec::with_capacity(KEPT + 1),
            number: 0,
        }
    }

    /// The next line's number and its bytes without the end, if there is one more.
    pub fn next_line(&mut self) -> io::Result<Option<(u64, &[u8])>> {
        if self.number == MOST_LINES {
            return Ok(None);
        }
        self.line.clear();
        // One byte more than is kept: the line feed.
        let mut input = self.input.by_ref().take(KEPT as u64 + 1);
        if input.read_until(b'\n', &mut self.line)? == 0 {
            return Ok(None);
        }
        if self.line.pop_if(|last| *last == b'\n').is_some() {
            self.line.pop_if(|last| *last == b'\r');
        } else if self.line.len() > KEPT {
            self.line.truncate(KEPT);
            self.input.skip_until(b'\n')?;
        }
        self.number += 1;
        Ok(Some((self.number, &self.line)))
    }
}

#[cfg(test)]
mod tests {
    use super::*;

    fn cut(input: &[u8]) -> Vec<Vec<u8>> {
        let mut lines = Lines::new(input);
        let mut all = Vec::new();
        while let Some((number, line)) = lines.next_line().unwrap() {
            all.push(line.to_vec());
            assert_eq!(number, all.len() as u64);
        }
        all
    }

    #[test]
    fn lines_end_with_a_line_feed_and_perhaps_a_carriage_return_before_it() {
        assert_eq!(cut(b""), [b""; 0]);
        assert_eq!(cut(b"\n\r\n"), [b"", b""]);
        assert_eq!(cut(b"a\rb\r\r\nc"), [&b"a\rb\r"[..], b"c"]);
        assert_eq!(cut(b"a\n\nb\r"), [&b"a"[..], b"", b"b\r"]);
    }

    #[test]
    fn long_lines_are_cut_short() {
        for long in [80, 81, 82, 83, 84, 100, 5000] {
            for end in [&b"\n"[..], b"\r\n", b""] {
                let mut input = vec![b'x'; long];
                input.extend(end);
                input.extend(b"y\n");
                let lines = cut(&input);
                if end.is_empty() {
                    assert_eq!(
                        lines,
                        [vec![b'x'; long]
                            .into_iter()
                            .chain([b'y'])
                            .take(82)
                            .collect::<Vec<_>>()]
                    );
                } else {
                    assert_eq!(lines[0], vec![b'x'; long.min(82)]);
                    assert_eq!(lines[1], b"y");
                }
            }
        }
    }

    #[test]
    fn what_follows_the_millionth_line_is_not_looked_at() {
        let input = vec![b'\n'; MOST_LINES as usize + 5];
        let mut lines = Lines::new(&input[..]);
        while lines.next_line().unwrap().is_some() {}
        assert_eq!(lines.number, MOST_LINES);
    }
}
