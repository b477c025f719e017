//! Running lockplay: its input reaches it in several ways, which must make no difference.

use std::fs::File;
use std::io::{BufRead, BufReader, Write};
use std::os::fd::OwnedFd;
use std::os::unix::net::UnixDatagram;
use std::path::PathBuf;
use std::process::{Child, ChildStdin, Command, Stdio};
use std::sync::mpsc::{Receiver, RecvTimeoutError, channel};
use std::thread;
use std::time::Duration;

/// How an input reaches a program.
#[derive(Clone, Debug, PartialEq, Eq)]
pub enum Way {
    /// It is a file.
    File,
    /// It is written to a pipe, all at once.
    Pipe,
    /// Each read gets one piece: of these sizes, and of the last one until the end.
    Pieces(Vec<usize>),
    /// Each line is written to a pipe when the one before has been answered.
    Talk,
}

/// What prints lines for an input, or fails in some way.
pub trait Program {
    fn run(&self, input: &[u8], way: &Way) -> Result<Vec<u8>, String>;
}

/// A program that is a file.
pub struct Process {
    pub path: PathBuf,
}

/// After this long without an answer, a program is taken to hang.
const PATIENCE: Duration = Duration::from_secs(30);

impl Program for Process {
    fn run(&self, input: &[u8], way: &Way) -> Result<Vec<u8>, String> {
        let told = |error: std::io::Error| format!("{}: {error}", self.path.display());
        match way {
            Way::File => self.run_file(input).map_err(told)?,
            Way::Pipe => self.run_pipe(input).map_err(told)?,
            Way::Pieces(sizes) => self.run_pieces(input, sizes).map_err(told)?,
            Way::Talk => self.talk(input).map_err(told)?,
        }
    }
}

impl Process {
    fn start(&self, stdin: Stdio) -> std::io::Result<Child> {
        Command::new(&self.path).stdin(stdin).stdout(Stdio::piped()).spawn()
    }

    fn run_file(&self, input: &[u8]) -> std::io::Result<Result<Vec<u8>, String>> {
        let path = std::env::temp_dir().join(format!("compare-input-{}", std::process::id()));
        std::fs::write(&path, input)?;
        let child = self.start(File::open(&path)?.into())?;
        std::fs::remove_file(&path)?;
        Ok(Answers::of(child).all())
    }

    fn run_pipe(&self, input: &[u8]) -> std::io::Result<Result<Vec<u8>, String>> {
        let mut child = self.start(Stdio::piped())?;
        let (mut stdin, input) = (stdin_of(&mut child), input.to_vec());
        let answers = Answers::of(child);
        // A program that stops reading shows by what it has printed.
        let writer = thread::spawn(move || stdin.write_all(&input).is_ok());
        let printed = answers.all();
        writer.join().expect("a thread that only writes");
        Ok(printed)
    }

    /// A read from a socket of datagrams gets one of them, and one without bytes is the end. None is longer than what the program reads at
    /// once, or a part of it would be lost.
    fn run_pieces(&self, input: &[u8], sizes: &[usize]) -> std::io::Result<Result<Vec<u8>, String>> {
        let (ours, theirs) = UnixDatagram::pair()?;
        let child = self.start(Stdio::from(OwnedFd::from(theirs)))?;
        let pieces: Vec<Vec<u8>> = pieces(input, sizes).into_iter().map(<[u8]>::to_vec).collect();
        let answers = Answers::of(child);
        let writer = thread::spawn(move || pieces.iter().all(|piece| ours.send(piece).is_ok()) && ours.send(b"").is_ok());
        let printed = answers.all();
        writer.join().expect("a thread that only sends");
        Ok(printed)
    }

    fn talk(&self, input: &[u8]) -> std::io::Result<Result<Vec<u8>, String>> {
        let mut child = self.start(Stdio::piped())?;
        let mut stdin = stdin_of(&mut child);
        let mut answers = Answers::of(child);
        let mut printed = Vec::new();
        for line in input.split_inclusive(|byte| *byte == 10) {
            // A program that stops reading shows by what it has printed.
            let written = stdin.write_all(line).and_then(|()| stdin.flush()).is_ok();
            if !written || !line.ends_with(&[10]) {
                break;
            }
            match answers.next() {
                Ok(Some(answer)) => printed.extend(answer),
                Ok(None) => break,
                Err(hangs) => return Ok(Err(hangs)),
            }
        }
        drop(stdin);
        Ok(answers.all().map(|rest| [printed, rest].concat()))
    }
}

fn stdin_of(child: &mut Child) -> ChildStdin {
    child.stdin.take().expect("a pipe, as asked for")
}

/// An input cut into pieces.
pub fn pieces<'a>(input: &'a [u8], sizes: &[usize]) -> Vec<&'a [u8]> {
    let mut sizes = sizes.iter().copied();
    let mut size = 1;
    let mut rest = input;
    let mut pieces = Vec::new();
    while !rest.is_empty() {
        size = sizes.next().unwrap_or(size).clamp(1, rest.len());
        let (piece, behind) = rest.split_at(size);
        pieces.push(piece);
        rest = behind;
    }
    pieces
}

/// The lines that a program prints, as they come.
struct Answers {
    child: Child,
    lines: Receiver<Vec<u8>>,
}

impl Answers {
    fn of(mut child: Child) -> Answers {
        let mut stdout = BufReader::new(child.stdout.take().expect("a pipe, as asked for"));
        let (send, lines) = channel();
        thread::spawn(move || {
            let mut line = Vec::new();
            while stdout.read_until(10, &mut line).is_ok_and(|count| count > 0) && send.send(std::mem::take(&mut line)).is_ok() {}
        });
        Answers { child, lines }
    }

    /// The next line; none at the end.
    fn next(&mut self) -> Result<Option<Vec<u8>>, String> {
        match self.lines.recv_timeout(PATIENCE) {
            Ok(line) => Ok(Some(line)),
            Err(RecvTimeoutError::Disconnected) => Ok(None),
            Err(RecvTimeoutError::Timeout) => {
                // It may have ended meanwhile, which is all that is wanted.
                let _ = self.child.kill();
                let _ = self.child.wait();
                Err(format!("nothing is printed for {} seconds", PATIENCE.as_secs()))
            }
        }
    }

    /// All that comes to the end. The program must end well.
    fn all(mut self) -> Result<Vec<u8>, String> {
        let mut printed = Vec::new();
        while let Some(line) = self.next()? {
            printed.extend(line);
        }
        match self.child.wait() {
            Ok(status) if status.success() => Ok(printed),
            Ok(status) => Err(format!("it ends with {status}")),
            Err(error) => Err(error.to_string()),
        }
    }
}

#[cfg(test)]
mod tests {
    use super::*;

    #[test]
    fn pieces_are_of_their_sizes() {
        assert_eq!(pieces(b"abcdef", &[1, 3]), [&b"a"[..], b"bcd", b"ef"]);
        assert_eq!(pieces(b"", &[1]), [] as [&[u8]; 0]);
        assert_eq!(pieces(b"ab", &[]), [b"a", b"b"]);
    }

    /// `cat` prints what it gets, whichever way it comes.
    #[test]
    fn every_way_reaches_a_program() {
        let cat = Process { path: "cat".into() };
        let long = b"0123456789\n".repeat(10_000);
        for way in [Way::File, Way::Pipe, Way::Pieces(vec![1, 7, 200]), Way::Talk] {
            for input in [&b""[..], b"\n", b"one\ntwo", b"one\n\ntwo\n"] {
                assert_eq!(cat.run(input, &way).as_deref(), Ok(input), "{way:?}");
            }
        }
        assert_eq!(cat.run(&long, &Way::Pipe).as_deref(), Ok(&long[..]));
        assert_eq!(cat.run(&long, &Way::Pieces(vec![200])).as_deref(), Ok(&long[..]));
    }

    #[test]
    fn a_program_that_fails_is_told() {
        assert!(Process { path: "false".into() }.run(b"", &Way::Pipe).is_err());
        assert!(Process { path: "/no/such/program".into() }.run(b"", &Way::Pipe).is_err());
    }
}
