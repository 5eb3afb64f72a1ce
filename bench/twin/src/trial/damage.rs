//! Inputs of `bedwatch` and `linewatch`: good sentences, and what can be wrong with them.

use crate::bands::LIMITS;
use crate::trial::random::Random;

/// An input of damaged lines between good ones.
pub fn damaged(mut random: Random) -> Vec<u8> {
    let (lines, often) = (random.within(1, 700), random.below(101));
    let mut input = Vec::new();
    for _ in 0..lines {
        let mut line = if random.percent(85) {
            depth_sentence(&mut random)
        } else {
            other_sentence(&mut random)
        };
        if random.percent(often) {
            line = damage(line, &mut random);
        }
        input.extend(line);
        end_line(&mut input, &mut random);
    }
    end_input(&mut input, &mut random);
    input
}

/// Every byte of one sentence flipped, taken away, doubled, or with another one before it; and every beginning of it.
pub fn systematic(mut random: Random) -> Vec<u8> {
    let line = if random.percent(75) {
        depth_sentence(&mut random)
    } else {
        other_sentence(&mut random)
    };
    let resums = random.percent(40);
    let mut input = Vec::new();
    for place in 0..=line.len() {
        let (before, after) = line.split_at(place);
        let mut made = vec![before.to_vec(), [before, &[random.byte()], after].concat()];
        if let Some((byte, rest)) = after.split_first() {
            made.push([before, rest].concat());
            made.push([before, &[*byte], after].concat());
            made.push([before, &[byte ^ (1 << random.below(8))], rest].concat());
            made.push([before, &[odd_byte(&mut random)], rest].concat());
        }
        for mut line in made {
            if resums {
                sum_again(&mut line);
            }
            input.extend(line);
            end_line(&mut input, &mut random);
        }
    }
    end_input(&mut input, &mut random);
    input
}

/// Good sentences alone, so many that windows slide for long.
pub fn good(mut random: Random) -> Vec<u8> {
    let lines = match random.below(3) {
        0 => random.below(300),
        1 => random.within(250, 260),
        _ => random.within(300, 9000),
    };
    let mut input = Vec::new();
    let others = random.below(30);
    for _ in 0..lines {
        let line = if random.percent(others) {
            other_sentence(&mut random)
        } else {
            depth_sentence(&mut random)
        };
        input.extend(line);
        input.extend(b"\r\n");
    }
    input
}

/// More lines than count: a few of them refused, and bad ones behind the last that counts.
pub fn too_many(mut random: Random, counted: u64) -> Vec<u8> {
    let mut input = Vec::new();
    for number in 0..counted + 50 {
        let mut line = depth_sentence(&mut random);
        if number % 9 == 0 || number + 3 > counted {
            line.truncate(line.len() - 1);
        }
        input.extend(line);
        input.extend(random.pick(&[&b"\n"[..], b"\r\n"]));
    }
    input
}

/// A sentence with this between the dollar sign and the star.
fn sentence(body: &[u8]) -> Vec<u8> {
    let sum = body.iter().fold(0, |sum, byte| sum ^ byte);
    let mut line = [b"$", body].concat();
    line.extend(format!("*{sum:02X}").bytes());
    line
}

/// A depth sentence whose clearance is often near a limit.
pub fn depth_sentence(random: &mut Random) -> Vec<u8> {
    let clearance = match random.below(4) {
        0 => random.pick(&LIMITS) + random.below(3) as i32 - 1,
        1 => random.below(110) as i32,
        2 => random.below(3000) as i32 - 1000,
        _ => random.pick(&LIMITS) - 10 * random.below(2) as i32,
    };
    let offset = random.below(4000) as i32 + (-clearance).max(0);
    let depth = metres(offset + clearance, random);
    let offset = metres(offset, random);
    let sounder = random.pick(&["SD", "SD", "SD", "II", "VW", "S0", "D5"]);
    let third = random.pick(&["", "", "", ",", ",9.5", ",any thing", ",\"{}~"]);
    sentence(format!("{sounder}DPT,{depth},-{offset}{third}").as_bytes())
}

/// So many centimetres in one of the forms that a number can have.
fn metres(centimetres: i32, random: &mut Random) -> String {
    let (whole, rest) = (centimetres / 100, centimetres % 100);
    let width = random.pick(&[1, 1, 2, 4]);
    match rest {
        0 if random.percent(50) => format!("{whole:0width$}"),
        _ if rest % 10 == 0 && random.percent(50) => format!("{whole:0width$}.{}", rest / 10),
        _ => format!("{whole:0width$}.{rest:02}"),
    }
}

/// A sentence of another kind, or with an address that nobody knows.
fn other_sentence(random: &mut Random) -> Vec<u8> {
    let kinds = [
        "SDDBT", "IIVTG", "SDMTW", "DPTSD", "SDDPU", "00000", "IIDPT",
    ];
    let mut address = random.pick(&kinds).as_bytes().to_vec();
    if random.percent(30) {
        let place = random.below(5) as usize;
        address[place] = random.pick(b"ABDPTZ0189");
    }
    let fields = random.below(5);
    address.extend((0..fields).flat_map(|_| other_field(random)));
    sentence(&address)
}

/// A field of any content, with the comma that begins it.
fn other_field(random: &mut Random) -> Vec<u8> {
    let mut field = b",".to_vec();
    for _ in 0..random.below(8) {
        field.push(random.pick(b"0123456789.-ABM abf#%~+"));
    }
    field
}

/// A line that is damaged half of the time.
pub fn perhaps_damaged(line: Vec<u8>, random: &mut Random) -> Vec<u8> {
    if random.percent(50) {
        damage(line, random)
    } else {
        line
    }
}

fn damage(line: Vec<u8>, random: &mut Random) -> Vec<u8> {
    match random.below(10) {
        0..3 => damage_bytes(line, random),
        3 => long_line(line, random),
        4 => other_digits(line, random),
        5 | 6 => odd_fields(random),
        7 => junk(random),
        8 => {
            let mut line = damage_bytes(line, random);
            sum_again(&mut line);
            line
        }
        _ => {
            let length = random.below(line.len() as u32 + 1) as usize;
            line[..length].to_vec()
        }
    }
}

/// A byte or two flipped, taken away, put in or doubled.
fn damage_bytes(mut line: Vec<u8>, random: &mut Random) -> Vec<u8> {
    for _ in 0..random.within(1, 2) {
        let place = random.below(line.len() as u32) as usize;
        let Some(byte) = line.get(place).copied() else {
            return line;
        };
        match random.below(5) {
            0 => line[place] = byte ^ (1 << random.below(8)),
            1 => line[place] = odd_byte(random),
            2 => {
                line.remove(place);
            }
            3 => line.insert(place, byte),
            _ => line.insert(place, odd_byte(random)),
        }
    }
    line
}

/// A byte at the edges of what is allowed, or any. A line feed cuts the line in two.
fn odd_byte(random: &mut Random) -> u8 {
    if random.percent(25) {
        return random.byte();
    }
    random.pick(b"$!*,.-+ ~/:@[`{09AFGZafgz\0\r\n\t\x1f\x7f\x80\xff")
}

/// Lengths about the longest sentence's, the bytes that are kept, and far beyond.
fn long_line(mut line: Vec<u8>, random: &mut Random) -> Vec<u8> {
    let length = match random.below(6) {
        0..5 => random.within(77, 85),
        _ => random.pick(&[100, 1000, 4095, 4096, 4097, 9000, 70_000]),
    } as usize;
    let stuffing = random.pick(b"x1, ~");
    if random.percent(70) {
        let star = line.iter().position(|byte| *byte == b'*');
        line.truncate(star.unwrap_or(line.len()));
        if random.percent(60) {
            line.push(b',');
        }
        line.resize(length.max(line.len() + 3) - 3, stuffing);
        line.extend(b"*00");
        sum_again(&mut line);
    } else {
        line.resize(length.max(line.len()), stuffing);
    }
    if random.percent(30) {
        line = damage_bytes(line, random);
    }
    if random.percent(20) {
        line.push(b'\r');
    }
    line
}

/// Digits of the checksum that are wrong, small or no digits.
fn other_digits(mut line: Vec<u8>, random: &mut Random) -> Vec<u8> {
    let digits = line.len() - 2;
    match random.below(3) {
        0 => line[digits..].make_ascii_lowercase(),
        1 => line[digits + random.below(2) as usize] = random.pick(b"0123456789ABCDEF"),
        _ => line[digits + random.below(2) as usize] = random.pick(b"GgaZ /:@`*,\r"),
    }
    line
}

/// A depth sentence with fields missing, added or of odd forms. Its checksum is right.
fn odd_fields(random: &mut Random) -> Vec<u8> {
    let numbers = [
        "4", "4.1", "0004.15", "0", "9999.99", "4.", ".5", "+4", "-4", "12345", "4.123", "", ".",
        "-", "--1", "-0", "-0.00", "-9999.99", "-3.6", "- 1", "-.5", "-5.", "-12345", "-1.234",
        " 4", "4 ", "4..1", "4.1.", "1e3", "0x1", "-4.1x", "00000", "-0000.0", "4.1M", "99999",
        "-4,1", "4a", "1-", "-1-",
    ];
    let mut body = random
        .pick(&["SDDPT", "SDDPT", "IIDPT", "SDDBT"])
        .to_owned();
    let good = random.percent(50);
    for field in 0..random.below(6) {
        body.push(',');
        if good && field == 0 {
            body.push_str("4.1");
        } else if good && field == 1 {
            body.push_str(random.pick(&["-3.6", "-3.52", "-4", "-0"]));
        } else {
            body.push_str(random.pick(&numbers));
        }
    }
    sentence(body.as_bytes())
}

/// Bytes of no meaning.
fn junk(random: &mut Random) -> Vec<u8> {
    let length = random.pick(&[0, 0, 1, 2, 6, 7, 9, 40, 80, 81, 82, 83, 200]);
    let any = random.percent(50);
    let junk = (0..length).map(|_| {
        if any {
            random.byte()
        } else {
            random.pick(b"$SDPT,.-*0A\r")
        }
    });
    junk.collect()
}

/// Gives a line that still has a star and two bytes behind it the right checksum.
fn sum_again(line: &mut [u8]) {
    let star = line.iter().position(|byte| *byte == b'*');
    let Some((star, begin)) = star.zip(line.iter().position(|byte| *byte == b'$')) else {
        return;
    };
    if begin < star && star + 3 <= line.len() {
        let sum = line[begin + 1..star].iter().fold(0, |sum, byte| sum ^ byte);
        let digits = format!("{sum:02X}");
        line[star + 1..star + 3].copy_from_slice(digits.as_bytes());
    }
}

fn end_line(input: &mut Vec<u8>, random: &mut Random) {
    let end: &[u8] = match random.below(50) {
        0..24 => b"\n",
        24..44 => b"\r\n",
        44 => b"\r",
        45 => b"\r\r\n",
        46 => b"\n\n",
        47 => b"\n\r\n",
        48 => b"\n\r",
        _ => b"",
    };
    input.extend(end);
}

/// The last line may have no end, or half of one.
fn end_input(input: &mut Vec<u8>, random: &mut Random) {
    match random.below(4) {
        0 => {
            input.extend(depth_sentence(random));
        }
        1 => {
            input.extend(depth_sentence(random));
            input.push(b'\r');
        }
        2 => input.push(b'\r'),
        _ => {}
    }
}

#[cfg(test)]
mod tests {
    use super::*;
    use crate::sentences::{Sentence, read_depth};

    #[test]
    fn good_sentences_are_read() {
        let mut random = Random::of_case(3, 4);
        for _ in 0..5000 {
            assert!(read_depth(&depth_sentence(&mut random)).is_ok());
            assert!(Sentence::read(&other_sentence(&mut random)).is_ok());
        }
    }

    #[test]
    fn a_line_can_be_summed_again() {
        let mut line = b"$SDDPT,4.1,-3.6*00".to_vec();
        sum_again(&mut line);
        assert_eq!(line, b"$SDDPT,4.1,-3.6*7A");
        let mut short = b"$SDDPT*5".to_vec();
        sum_again(&mut short);
        assert_eq!(short, b"$SDDPT*5");
    }
}
