//! The requests of the protocol of `docs/REPLAY.md`, as they are spelled.

use std::io::{self, Read};

/// Every request has so many bytes.
pub const LENGTH: usize = 12;

/// At most so many bytes are read at a time.
const CHUNK: usize = 64 * 1024;

#[derive(Clone, Copy, Debug, PartialEq, Eq)]
pub struct Request {
    pub op: u8,
    pub key: [u8; 5],
    pub small: u8,
    pub what: u8,
    pub number: u32,
}

impl Request {
    pub fn of(bytes: [u8; LENGTH]) -> Request {
        let [op, k0, k1, k2, k3, k4, small, what, n0, n1, n2, n3] = bytes;
        Request {
            op,
            key: [k0, k1, k2, k3, k4],
            small,
            what,
            number: u32::from_le_bytes([n0, n1, n2, n3]),
        }
    }

    pub fn bytes(&self) -> [u8; LENGTH] {
        let [k0, k1, k2, k3, k4] = self.key;
        let [n0, n1, n2, n3] = self.number.to_le_bytes();
        [
            self.op, k0, k1, k2, k3, k4, self.small, self.what, n0, n1, n2, n3,
        ]
    }

    /// The number that the first four bytes of the key spell.
    pub fn spelled(&self) -> u32 {
        let [k0, k1, k2, k3, _] = self.key;
        u32::from_le_bytes([k0, k1, k2, k3])
    }
}

/// Reads requests in whatever pieces they come.
#[derive(Debug)]
pub struct Requests<R> {
    input: R,
    buffer: Vec<u8>,
    /// Behind the last byte that was read.
    end: usize,
}

impl<R: Read> Requests<R> {
    pub fn new(input: R) -> Requests<R> {
        Requests {
            input,
            buffer: vec![0; CHUNK],
            end: 0,
        }
    }

    /// Waits for more bytes and answers the requests that are complete with them; nothing at the end of the input.
    pub fn next_piece(&mut self) -> io::Result<Option<impl Iterator<Item = Request>>> {
        let used = self.end - self.end % LENGTH;
        self.buffer.copy_within(used..self.end, 0);
        self.end -= used;
        let more = loop {
            match self.input.read(&mut self.buffer[self.end..]) {
                Err(error) if error.kind() == io::ErrorKind::Interrupted => {}
                other => break other?,
            }
        };
        if more == 0 {
            return Ok(None);
        }
        self.end += more;
        let (requests, _) = self.buffer[..self.end].as_chunks::<LENGTH>();
        Ok(Some(requests.iter().map(|bytes| Request::of(*bytes))))
    }
}

#[cfg(test)]
mod tests {
    use super::*;

    #[test]
    fn a_request_reads_as_it_is_spelled() {
        let request = Request {
            op: b'X',
            key: [1, 2, 3, 4, 5],
            small: 6,
            what: b'P',
            number: 0x0403_0201,
        };
        assert_eq!(
            request.bytes(),
            *b"X\x01\x02\x03\x04\x05\x06P\x01\x02\x03\x04"
        );
        assert_eq!(Request::of(request.bytes()), request);
        assert_eq!(request.spelled(), 0x0403_0201);
    }

    #[test]
    fn requests_come_in_any_pieces() {
        let bytes: Vec<u8> = (0..100u8).collect();
        let (first, rest) = bytes.split_at(17);
        let mut requests = Requests::new(first.chain(rest));
        let mut all = Vec::new();
        while let Some(piece) = requests.next_piece().unwrap() {
            all.extend(piece.map(|request| request.op));
        }
        assert_eq!(all, [0, 12, 24, 36, 48, 60, 72, 84]);
    }
}
