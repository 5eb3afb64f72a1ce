//! A keeper with its tables and its list, and what each request does to them.

use std::io::{self, Write};

use crate::digest;
use crate::keeper::{Bracket, Entry, Keeper};
use crate::requests::Request;
use crate::settings::Setting;
use crate::spelling::{Draws, Spelled};
use crate::stage::{Stage, Undone};
use crate::tally::{Head, Row};

#[derive(Debug)]
pub struct Session<P, K> {
    stage: Stage<P>,
    rows: Vec<Row<K>>,
    heads: Vec<Head>,
    list: Vec<Entry<K>>,
    /// How much of each is lent to a call.
    lent_rows: usize,
    lent_heads: usize,
    lent_places: usize,
    draws: Draws,
}

/// What a sum needs of the request.
#[derive(Clone, Copy)]
struct Repeated {
    what: u8,
    among: u32,
    small: u8,
}

impl<P: Keeper, K: Spelled> Session<P, K> {
    pub fn new(setting: Setting) -> Session<P, K> {
        let stage = Stage::<P>::fresh(setting);
        let need = stage.keeper().need();
        let places = setting.capacity() as usize;
        let row = Row {
            key: K::BLANK,
            count: 0,
        };
        let entry = Entry {
            key: K::BLANK,
            bracket: Bracket::default(),
        };
        Session {
            stage,
            rows: vec![row; need.rows],
            heads: vec![Head::default(); need.heads],
            list: vec![entry; places],
            lent_rows: need.rows,
            lent_heads: need.heads,
            lent_places: places,
            draws: Draws::default(),
        }
    }

    /// Performs a request and writes its answer, one line.
    pub fn answer(&mut self, request: Request, mut output: impl Write) -> io::Result<()> {
        match request.op {
            b'F' => tell(self.stage.fix(request.number), output),
            b'D' => tell(self.stage.drop_oldest(), output),
            b'T' => tell(self.stage.turn(), output),
            b'P' | b'S' | b'C' => match K::of_bytes(request.key) {
                Some(key) => self.answer_key(request.op, key, output),
                None => writeln!(output, "no key"),
            },
            b'L' => self.answer_list(request.number, output),
            b'V' => self.answer_verdict(request, output),
            b'G' => {
                let figures = self.stage.keeper().figures();
                writeln!(output, "figures {} {}", figures.puts, figures.size)
            }
            b'W' => {
                let digest = digest::of_tables(&self.rows, &self.heads);
                writeln!(output, "tables {digest}")
            }
            b'R' | b'H' | b'N' | b'I' => {
                self.arrange(request);
                writeln!(output, "done")
            }
            b'X' => self.answer_repeated(request, output),
            _ => writeln!(output, "no call"),
        }
    }

    fn lent(&self) -> (&[Row<K>], &[Head]) {
        (&self.rows[..self.lent_rows], &self.heads[..self.lent_heads])
    }

    fn put(&mut self, key: K) -> Result<(), Undone> {
        let rows = &mut self.rows[..self.lent_rows];
        self.stage
            .put(rows, &mut self.heads[..self.lent_heads], key)
    }

    fn slide(&mut self, key: K) -> Result<(), Undone> {
        let rows = &mut self.rows[..self.lent_rows];
        self.stage
            .slide(rows, &mut self.heads[..self.lent_heads], key)
    }

    fn bring(&mut self, key: K) -> Result<(), Undone> {
        let rows = &mut self.rows[..self.lent_rows];
        self.stage
            .bring(rows, &mut self.heads[..self.lent_heads], key)
    }

    fn count(&self, key: &K) -> Result<Bracket, Undone> {
        let (rows, heads) = self.lent();
        Ok(self.stage.keeper().count(rows, heads, key)?)
    }

    fn list(&mut self, threshold: u32) -> Result<&[Entry<K>], Undone> {
        let rows = &self.rows[..self.lent_rows];
        let heads = &self.heads[..self.lent_heads];
        let list = &mut self.list[..self.lent_places];
        let many = self.stage.keeper().list(rows, heads, threshold, list)?;
        Ok(&list[..many])
    }

    fn answer_key(&mut self, op: u8, key: K, mut output: impl Write) -> io::Result<()> {
        match op {
            b'P' => tell(self.put(key), output),
            b'S' => tell(self.slide(key), output),
            _ => match self.count(&key) {
                Ok(Bracket { floor, ceiling }) => writeln!(output, "counted {floor} {ceiling}"),
                Err(undone) => writeln!(output, "{undone}"),
            },
        }
    }

    fn answer_list(&mut self, threshold: u32, mut output: impl Write) -> io::Result<()> {
        let entries = match self.list(threshold) {
            Ok(entries) => entries,
            Err(undone) => return writeln!(output, "{undone}"),
        };
        write!(output, "listed {}", entries.len())?;
        for Entry { key, bracket } in entries {
            write!(output, " ")?;
            for byte in key.bytes() {
                write!(output, "{byte:02x}")?;
            }
            write!(output, " {} {}", bracket.floor, bracket.ceiling)?;
        }
        writeln!(output)
    }

    fn answer_verdict(&self, request: Request, mut output: impl Write) -> io::Result<()> {
        let [first, second, ..] = request.key;
        let (rows, heads) = self.lent();
        let keeper = self.stage.keeper();
        match K::judge(keeper, rows, heads, [first, second], request.small) {
            None => writeln!(output, "no call"),
            Some(Ok(judgement)) => writeln!(output, "{judgement}"),
            Some(Err(refusal)) => writeln!(output, "{refusal}"),
        }
    }

    /// Changes what is lent, or what the tables hold.
    fn arrange(&mut self, request: Request) {
        let number = request.number as usize;
        match request.op {
            b'R' => self.lent_rows = number.min(self.rows.len()),
            b'H' => self.lent_heads = number.min(self.heads.len()),
            b'N' => self.lent_places = number.min(self.list.len()),
            _ => self.spoil(request.spelled() as usize, request.number),
        }
    }

    fn spoil(&mut self, place: usize, number: u32) {
        if let Some(at) = place.checked_rem(self.rows.len()) {
            self.rows[at].count = number;
        }
        if let Some(at) = place.checked_rem(self.heads.len()) {
            self.heads[at] = Head {
                used: number,
                lost: number,
            };
        }
    }

    fn answer_repeated(&mut self, request: Request, mut output: impl Write) -> io::Result<()> {
        let repeated = Repeated {
            what: request.what,
            among: request.spelled(),
            small: request.small,
        };
        if !b"PDCLV".contains(&repeated.what) {
            return writeln!(output, "no call");
        }
        let sum = (0..request.number).fold(0u64, |sum, _| {
            sum.wrapping_add(self.repeat(repeated).unwrap_or(0))
        });
        writeln!(output, "sum {sum}")
    }

    /// One of many calls, and what it adds to their sum. One that is not done adds nothing.
    fn repeat(&mut self, repeated: Repeated) -> Option<u64> {
        match repeated.what {
            b'P' => {
                let key = self.draws.next_key(repeated.among);
                self.bring(key).ok().map(|()| 1)
            }
            b'D' => self.stage.drop_oldest().ok().map(|()| 1),
            b'C' => {
                let key = self.draws.next_key(repeated.among);
                self.count(&key).ok().map(both)
            }
            b'L' => {
                let entries = self.list(repeated.among).ok()?;
                Some(entries.iter().map(|entry| both(entry.bracket) + 1).sum())
            }
            _ => self.repeat_verdict(repeated),
        }
    }

    fn repeat_verdict(&mut self, repeated: Repeated) -> Option<u64> {
        let key: K = self.draws.next_key(repeated.among);
        let [first, second, ..] = key.bytes();
        let (rows, heads) = self.lent();
        let class = repeated.small % 6 + 1;
        let judgement = K::judge(self.stage.keeper(), rows, heads, [first, second], class)?;
        judgement.ok().map(|told| told.floor + told.ceiling)
    }
}

fn both(bracket: Bracket) -> u64 {
    u64::from(bracket.floor) + u64::from(bracket.ceiling)
}

/// Writes the answer of a call that tells no more than whether it was done.
fn tell(done: Result<(), Undone>, mut output: impl Write) -> io::Result<()> {
    match done {
        Ok(()) => writeln!(output, "done"),
        Err(undone) => writeln!(output, "{undone}"),
    }
}
