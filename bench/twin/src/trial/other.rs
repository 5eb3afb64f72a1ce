//! Runs a program: all of its input at once, or one piece after the other.

use std::io::{self, BufRead, BufReader, Read, Write};
use std::path::Path;
use std::process::{Child, ChildStdin, ChildStdout, Command, ExitStatus, Stdio};
use std::thread;

/// What a program wrote, and how it ended.
#[derive(Debug)]
pub struct Answer {
    pub bytes: Vec<u8>,
    pub status: ExitStatus,
}

fn start(program: &Path) -> io::Result<(Child, ChildStdin, ChildStdout)> {
    let mut child = Command::new(program)
        .stdin(Stdio::piped())
        .stdout(Stdio::piped())
        .spawn()?;
    let pipes = child.stdin.take().zip(child.stdout.take());
    let (input, output) = pipes.ok_or_else(|| io::Error::other("no pipes"))?;
    Ok((child, input, output))
}

/// Runs a program on an input.
pub fn answer(program: &Path, input: &[u8]) -> io::Result<Answer> {
    let (mut child, mut pipe, mut output) = start(program)?;
    let mut bytes = Vec::new();
    thread::scope(|scope| {
        let writer = scope.spawn(move || match pipe.write_all(input) {
            // Nobody has to read what does not count.
            Err(error) if error.kind() == io::ErrorKind::BrokenPipe => Ok(()),
            other => other,
        });
        output.read_to_end(&mut bytes)?;
        writer
            .join()
            .map_err(|_| io::Error::other("the writer failed"))?
    })?;
    let status = child.wait()?;
    Ok(Answer { bytes, status })
}

/// A program that is written to and read from in turn.
#[derive(Debug)]
pub struct Conversation {
    child: Child,
    input: ChildStdin,
    output: BufReader<ChildStdout>,
}

impl Conversation {
    pub fn start(program: &Path) -> io::Result<Conversation> {
        let (child, input, output) = start(program)?;
        Ok(Conversation {
            child,
            input,
            output: BufReader::new(output),
        })
    }

    pub fn say(&mut self, bytes: &[u8]) -> io::Result<()> {
        self.input.write_all(bytes)
    }

    /// The next line, with its end.
    pub fn hear(&mut self) -> io::Result<Vec<u8>> {
        let mut line = Vec::new();
        self.output.read_until(b'\n', &mut line)?;
        Ok(line)
    }

    /// Says nothing more, and hears the rest.
    pub fn end(self) -> io::Result<Answer> {
        let Conversation {
            mut child,
            input,
            mut output,
        } = self;
        drop(input);
        let mut bytes = Vec::new();
        output.read_to_end(&mut bytes)?;
        let status = child.wait()?;
        Ok(Answer { bytes, status })
    }
}
