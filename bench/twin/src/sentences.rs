//! Reads NMEA 0183 sentences, and the clearance from those that tell a depth.

use std::fmt;

use crate::keys::AddressKey;

/// The most bytes that a sentence has.
const LONGEST: usize = 80;

/// The place behind the address, where the fields begin.
const FIELDS: usize = 6;

#[derive(Clone, Copy, Debug, PartialEq, Eq)]
pub enum Fault {
    Shape,
    Checksum,
    NotDepth,
    NoClearance,
}

impl Fault {
    pub fn number(self) -> u32 {
        match self {
            Fault::Shape => 12,
            Fault::Checksum => 13,
            Fault::NotDepth => 14,
            Fault::NoClearance => 15,
        }
    }

    /// The refusal by this fault at the byte of that place, counted from 0.
    fn at(self, place: usize) -> LineRefusal {
        LineRefusal {
            fault: self,
            column: place + 1,
        }
    }
}

/// Why a line was refused, and where. Columns count from 1.
#[derive(Clone, Copy, Debug, PartialEq, Eq)]
pub struct LineRefusal {
    pub fault: Fault,
    pub column: usize,
}

impl fmt::Display for LineRefusal {
    fn fmt(&self, f: &mut fmt::Formatter<'_>) -> fmt::Result {
        write!(f, "refused {} at {}", self.fault.number(), self.column)
    }
}

/// Who sounded, and the clearance in centimetres.
#[derive(Clone, Copy, Debug, PartialEq, Eq)]
pub struct Reading {
    pub sounder: [u8; 2],
    pub clearance: i32,
}

/// A line of right shape whose checksum is right.
#[derive(Clone, Copy, Debug)]
pub struct Sentence<'a> {
    /// From the dollar sign to before the star.
    body: &'a [u8],
    address: AddressKey,
}

impl<'a> Sentence<'a> {
    pub fn read(line: &'a [u8]) -> Result<Sentence<'a>, LineRefusal> {
        let star = star_of(line).map_err(|wrong| Fault::Shape.at(wrong))?;
        let sum = line[1..star].iter().fold(0, |sum, byte| sum ^ byte);
        if line[star + 1..] != [digit(sum >> 4), digit(sum & 15)] {
            return Err(Fault::Checksum.at(star + 1));
        }
        let [_, first, second, third, fourth, fifth] = line[..FIELDS] else {
            return Err(Fault::Shape.at(star));
        };
        Ok(Sentence {
            body: &line[..star],
            address: AddressKey([first, second, third, fourth, fifth]),
        })
    }

    pub fn address(&self) -> AddressKey {
        self.address
    }

    /// The reading that a depth sentence tells.
    pub fn reading(&self) -> Result<Reading, LineRefusal> {
        if self.address.kind() != *b"DPT" {
            return Err(Fault::NotDepth.at(1));
        }
        let mut fields = self.fields();
        let depth = fields.number(centimetres)?;
        let offset = fields.number(|field| centimetres(field.strip_prefix(b"-")?))?;
        // Nobody looks at the third.
        fields.next();
        if let Some((place, _)) = fields.next() {
            return Err(Fault::NoClearance.at(place));
        }
        let [first, second, ..] = self.address.0;
        Ok(Reading {
            sounder: [first, second],
            clearance: depth - offset,
        })
    }

    fn fields(&self) -> Fields<'a> {
        Fields {
            body: self.body,
            place: FIELDS,
        }
    }
}

/// The reading of a line, or why it has none.
pub fn read_depth(line: &[u8]) -> Result<Reading, LineRefusal> {
    Sentence::read(line)?.reading()
}

/// The place of the star in a line of right shape; else of the first wrong byte, or of the first that is missing.
fn star_of(line: &[u8]) -> Result<usize, usize> {
    let seen = &line[..line.len().min(LONGEST)];
    let mut star = None;
    for (place, byte) in seen.iter().enumerate() {
        let is_right = match star {
            None if place == 0 => *byte == b'$',
            None if place < FIELDS => byte.is_ascii_uppercase() || byte.is_ascii_digit(),
            None if place == FIELDS => matches!(byte, b',' | b'*'),
            None => matches!(byte, b' '..=b'~') && !matches!(byte, b'$' | b'!'),
            Some(star) => place <= star + 2 && matches!(byte, b'0'..=b'9' | b'A'..=b'F'),
        };
        if !is_right {
            return Err(place);
        }
        if *byte == b'*' {
            star = Some(place);
        }
    }
    match star {
        Some(star) if star + 3 == seen.len() && seen.len() == line.len() => Ok(star),
        _ => Err(seen.len()),
    }
}

/// The capital hexadecimal digit of a number below 16.
fn digit(number: u8) -> u8 {
    match number {
        0..=9 => b'0' + number,
        _ => b'A' + number - 10,
    }
}

/// The fields of a sentence with their places. Each is begun by a comma.
struct Fields<'a> {
    body: &'a [u8],
    /// Where the next comma is, or the body's end.
    place: usize,
}

impl<'a> Fields<'a> {
    /// The next field, read as a number; an absent one is missed at the star.
    fn number(&mut self, read: impl Fn(&[u8]) -> Option<i32>) -> Result<i32, LineRefusal> {
        let Some((place, field)) = self.next() else {
            return Err(Fault::NoClearance.at(self.place));
        };
        read(field).ok_or(Fault::NoClearance.at(place))
    }
}

impl<'a> Iterator for Fields<'a> {
    type Item = (usize, &'a [u8]);

    fn next(&mut self) -> Option<(usize, &'a [u8])> {
        let rest = self.body.get(self.place + 1..)?;
        let begin = self.place + 1;
        let length = rest.iter().position(|byte| *byte == b',');
        let field = &rest[..length.unwrap_or(rest.len())];
        self.place = begin + field.len();
        Some((begin, field))
    }
}

/// A number in metres, told in centimetres: one to four digits, and perhaps a point with one or two more.
fn centimetres(number: &[u8]) -> Option<i32> {
    let point = number.iter().position(|byte| *byte == b'.');
    let (metres, rest) = number.split_at(point.unwrap_or(number.len()));
    let rest = match rest {
        [] => 0,
        [_, tenths] => 10 * digits(&[*tenths])?,
        [_, hundredths @ ..] if hundredths.len() == 2 => digits(hundredths)?,
        _ => return None,
    };
    if !(1..=4).contains(&metres.len()) {
        return None;
    }
    Some(100 * digits(metres)? + rest)
}

/// What a few decimal digits write.
fn digits(digits: &[u8]) -> Option<i32> {
    digits.iter().try_fold(0, |sum, byte| {
        byte.is_ascii_digit()
            .then(|| 10 * sum + i32::from(byte - b'0'))
    })
}

#[cfg(test)]
mod tests {
    use super::*;

    fn refused(line: &[u8]) -> (u32, usize) {
        let refusal = read_depth(line).unwrap_err();
        (refusal.fault.number(), refusal.column)
    }

    /// A sentence of these bytes, with its checksum.
    fn summed(body: &str) -> Vec<u8> {
        let sum = body.bytes().fold(0, |sum, byte| sum ^ byte);
        format!("${body}*{sum:02X}").into_bytes()
    }

    #[test]
    fn a_depth_sentence_tells_a_reading() {
        let reading = |clearance| {
            Ok(Reading {
                sounder: *b"SD",
                clearance,
            })
        };
        assert_eq!(read_depth(b"$SDDPT,4.1,-3.6*7A"), reading(50));
        assert_eq!(
            read_depth(&summed("SDDPT,0004.15,-0,anything")),
            reading(415)
        );
        assert_eq!(read_depth(&summed("SDDPT,0,-9999.99")), reading(-999_999));
        assert_eq!(
            read_depth(&summed("SDDPT,9999.99,-0.00,")),
            reading(999_999)
        );
    }

    #[test]
    fn absent_fields_are_missed_at_the_star() {
        assert_eq!(refused(b"$SDDPT*57"), (15, 7));
        assert_eq!(refused(b"$SDDPT,*7B"), (15, 8));
        assert_eq!(refused(b"$SDDPT,4.1*50"), (15, 11));
    }

    #[test]
    fn odd_numbers_are_none() {
        for odd in [
            "4.", ".5", "+4", "12345", "4.123", "", ".", "4,", "-4", " 4", "4.1.",
        ] {
            assert_eq!(refused(&summed(&format!("SDDPT,{odd},-1"))).0, 15);
        }
        assert_eq!(refused(&summed("SDDPT,4,1")), (15, 10));
        assert_eq!(refused(&summed("SDDPT,4,--1")), (15, 10));
        assert_eq!(refused(&summed("SDDPT,4,-1,,")), (15, 14));
        assert_eq!(refused(&summed("SDDBT,4,-1")), (14, 2));
    }

    #[test]
    fn the_first_wrong_byte_is_told() {
        assert_eq!(refused(b""), (12, 1));
        assert_eq!(refused(b"$SDdPT,4.1,-3.6*7A"), (12, 4));
        assert_eq!(refused(b"$SDDPT;4.1,-3.6*7A"), (12, 7));
        assert_eq!(refused(b"$SDDPT,4!1,-3.6*7A"), (12, 9));
        assert_eq!(refused(b"$SDDPT,4.1,-3.6*7a"), (12, 18));
        assert_eq!(refused(b"$SDDPT,4.1,-3.6*7"), (12, 18));
        assert_eq!(refused(b"$SDDPT,4.1,-3.6*7A\r"), (12, 19));
        assert_eq!(refused(b"$SDDPT,4.1,-3.6*7B"), (13, 17));
    }

    #[test]
    fn a_sentence_has_at_most_eighty_bytes() {
        let long = |length: usize| summed(&format!("SDDPT,4,-1,{}", "x".repeat(length - 15)));
        assert_eq!(long(80).len(), 80);
        assert!(read_depth(&long(80)).is_ok());
        assert_eq!(refused(&long(81)), (12, 81));
        assert_eq!(refused(&long(82)), (12, 81));
        assert_eq!(refused(&long(80)[..79]), (12, 80));
        let mut wrong = long(82);
        wrong[40] = b'$';
        assert_eq!(refused(&wrong), (12, 41));
    }
}
