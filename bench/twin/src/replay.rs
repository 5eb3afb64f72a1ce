//! The program `replay`: performs the calls that a header and requests spell.

use std::io::{self, Read, Write};

use crate::keeper::Keeper;
use crate::keys::{AddressKey, SoundingKey};
use crate::ladder::Ladder;
use crate::requests::Requests;
use crate::ring::Ring;
use crate::session::Session;
use crate::settings::Setting;
use crate::spelling::Spelled;

/// Performs the calls, and writes their answers before it reads again.
pub fn run(mut input: impl Read, mut output: impl Write) -> io::Result<()> {
    let mut header = [0; 4];
    match input.read_exact(&mut header) {
        Err(error) if error.kind() == io::ErrorKind::UnexpectedEof => header = [0; 4],
        other => other?,
    }
    let [keeper, kind, accuracy, span] = header;
    let perform = match (keeper, kind) {
        (b'R', b'S') => perform::<Ring, SoundingKey>,
        (b'R', b'A') => perform::<Ring, AddressKey>,
        (b'L', b'S') => perform::<Ladder, SoundingKey>,
        (b'L', b'A') => perform::<Ladder, AddressKey>,
        _ => {
            writeln!(output, "no header")?;
            return output.flush();
        }
    };
    match Setting::new(accuracy.into(), span.into()) {
        Ok(setting) => perform(setting, &mut input, &mut output),
        Err(refusal) => {
            writeln!(output, "{refusal}")?;
            output.flush()
        }
    }
}

fn perform<P: Keeper, K: Spelled>(
    setting: Setting,
    input: &mut dyn Read,
    mut output: &mut dyn Write,
) -> io::Result<()> {
    let mut session = Session::<P, K>::new(setting);
    let mut requests = Requests::new(input);
    while let Some(piece) = requests.next_piece()? {
        for request in piece {
            session.answer(request, &mut output)?;
        }
        output.flush()?;
    }
    Ok(())
}

#[cfg(test)]
mod tests {
    use super::*;
    use crate::requests::Request;

    fn told(input: &[u8]) -> String {
        let mut output = Vec::new();
        run(input, &mut output).unwrap();
        String::from_utf8(output).unwrap()
    }

    fn request(op: u8, key: &[u8; 5], number: u32) -> Request {
        Request {
            op,
            key: *key,
            small: 1,
            what: 0,
            number,
        }
    }

    fn script(header: &[u8; 4], requests: &[Request]) -> Vec<u8> {
        let mut bytes = header.to_vec();
        bytes.extend(requests.iter().flat_map(Request::bytes));
        bytes
    }

    #[test]
    fn headers_that_are_none() {
        assert_eq!(told(b""), "no header\n");
        assert_eq!(told(b"RS\x01"), "no header\n");
        assert_eq!(told(b"RX\x01\x04"), "no header\n");
        assert_eq!(told(b"RS\x00\x04"), "refused 1\n");
        assert_eq!(told(b"LA\x06\x08"), "refused 2\n");
        assert_eq!(told(b"LA\x06\x09 too short"), "");
    }

    #[test]
    fn answers_are_one_line_each() {
        let calls = [
            request(b'P', b"SDDPT", 0),
            request(b'P', b"IIDPT", 0),
            request(b'P', b"SDDBT", 0),
            request(b'C', b"VWDPT", 0),
            request(b'L', b"-----", 2),
            request(b'L', b"-----", 1),
            request(b'G', b"-----", 0),
            request(b'V', b"SD---", 0),
            request(b'T', b"-----", 0),
            request(b'N', b"-----", 0),
            request(b'L', b"-----", 2),
            request(b'?', b"-----", 0),
        ];
        let expected = "done\ndone\ndone\ncounted 2 2\nlisted 1 5344445054 2 2\nrefused 10\nfigures 3 3\nno call\n\
            not in trace\ndone\nrefused 5\nno call\n";
        assert_eq!(told(&script(b"LA\x01\x04", &calls)), expected);
        assert_eq!(told(&script(b"RA\x01\x04", &calls)), expected);
    }

    #[test]
    fn soundings_have_verdicts_and_bands_up_to_six() {
        let calls = [
            request(b'P', b"SD\x07\0\0", 0),
            request(b'V', b"SD\0\0\0", 0),
            request(b'P', b"SD\0xy", 0),
            request(b'V', b"SD\xffxy", 0),
            request(b'L', b"-----", 1),
            request(b'R', b"-----", 15),
            request(b'V', b"SD\0\0\0", 0),
            request(b'S', b"SD\0\0\0", 0),
        ];
        let expected = "no key\nunsure 0 0\ndone\nheld 1 1\nlisted 1 5344000000 1 1\ndone\nrefused 4\nnot in trace\n";
        assert_eq!(told(&script(b"RS\x01\x04", &calls)), expected);
    }

    #[test]
    fn many_calls_are_summed() {
        let many = |what, number| Request {
            op: b'X',
            key: [3, 0, 0, 0, 0],
            small: 0,
            what,
            number,
        };
        let calls = [
            many(b'P', 20),
            many(b'D', 3),
            many(b'?', 1),
            many(b'V', 2),
            request(b'G', b"-----", 0),
        ];
        let expected = "sum 16\nsum 3\nno call\nsum 0\nfigures 16 13\n";
        assert_eq!(told(&script(b"LA\x01\x04", &calls)), expected);
    }
}
