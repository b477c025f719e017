//! The program `lockplay`: what it prints for an input, from what document 01 says of it at the end of its bench sequences. Document 02: it
//! "prints a field that an answer gains [..] after the others, in its sample too".

use crate::{Refused, State};

/// R and L of its tables.
pub const SIZES: (u32, u32) = (4, 8);

/// The most bytes of a line, byte 10 not counted.
pub const LONGEST: usize = 256;

/// What a line asks for.
#[derive(Clone, Copy, Debug, PartialEq, Eq)]
#[allow(missing_docs)]
pub enum Asked<'a> {
    Request { client: u32, mode: u32, flags: u32, name: &'a [u8] },
    Convert { client: u32, lock: u32, mode: u32, flags: u32 },
    Release { client: u32, lock: u32, flags: u32 },
    Cancel { client: u32, lock: u32 },
    Purge { client: u32 },
    Break,
    Poll { client: u32 },
}

/// What is answered to a line.
#[derive(Clone, Debug, PartialEq, Eq)]
pub enum Reply {
    /// The answer's numbers.
    Answer(Vec<u32>),
    /// The call is turned down.
    Refused(Refused),
    /// The line has another form, or is too long.
    AnotherForm,
}

/// The lines of an input. A line runs to byte 10 or the end of input; after a last byte 10 there is no further line.
pub fn lines(input: &[u8]) -> impl Iterator<Item = &[u8]> {
    input.split_inclusive(|byte| *byte == 10).map(|line| line.strip_suffix(&[10]).unwrap_or(line))
}

/// A number of 1 to 9 digits.
fn number(field: &[u8]) -> Option<u32> {
    let digits = (1..=9).contains(&field.len()) && field.iter().all(u8::is_ascii_digit);
    digits.then(|| field.iter().fold(0, |number, digit| 10 * number + u32::from(digit - b'0')))
}

/// Exactly so many numbers, parted by one space.
fn numbers<const COUNT: usize>(fields: &[&[u8]]) -> Option<[u32; COUNT]> {
    let numbers: Vec<u32> = fields.iter().map(|field| number(field)).collect::<Option<_>>()?;
    numbers.try_into().ok()
}

/// What a line asks for; none if it has another form or over 256 bytes. A request's name is all after the fourth space.
pub fn asked(line: &[u8]) -> Option<Asked<'_>> {
    if line.len() > LONGEST {
        return None;
    }
    if line.starts_with(b"q ") {
        let fields: Vec<&[u8]> = line.splitn(5, |byte| *byte == b' ').collect();
        let [_, rest @ .., name] = &fields[..] else { return None };
        let [client, mode, flags] = numbers(rest)?;
        return Some(Asked::Request { client, mode, flags, name });
    }
    let fields: Vec<&[u8]> = line.split(|byte| *byte == b' ').collect();
    let (letter, rest) = fields.split_first()?;
    match *letter {
        b"c" => numbers(rest).map(|[client, lock, mode, flags]| Asked::Convert { client, lock, mode, flags }),
        b"r" => numbers(rest).map(|[client, lock, flags]| Asked::Release { client, lock, flags }),
        b"x" => numbers(rest).map(|[client, lock]| Asked::Cancel { client, lock }),
        b"p" => numbers(rest).map(|[client]| Asked::Purge { client }),
        b"d" => numbers(rest).map(|[]| Asked::Break),
        b"n" => numbers(rest).map(|[client]| Asked::Poll { client }),
        _ => None,
    }
}

impl Asked<'_> {
    /// Makes the call. Values are empty.
    fn make(self, state: &mut State) -> Result<Vec<u32>, Refused> {
        match self {
            Asked::Request { client, mode, flags, name } => {
                state.request(client, mode, flags, name).map(|(answer, lock)| vec![answer.number(), lock])
            }
            Asked::Convert { client, lock, mode, flags } => {
                state.convert(client, lock, mode, flags, b"").map(|answer| vec![answer.number()])
            }
            Asked::Release { client, lock, flags } => state.release(client, lock, flags, b"").map(|()| vec![0]),
            Asked::Cancel { client, lock } => state.cancel(client, lock).map(|answer| vec![answer]),
            Asked::Purge { client } => state.purge(client).map(|purged| vec![purged.locks, purged.blocked, purged.unread]),
            Asked::Break => Ok(vec![state.break_deadlock()]),
            Asked::Poll { client } => state.poll(client).map(|polled| vec![polled.completion, polled.lock, polled.mark]),
        }
    }
}

/// A run of the program: its tables.
pub struct Run {
    /// What the tables hold.
    pub state: State,
}

impl Run {
    /// The start of a run, on started tables.
    #[allow(clippy::new_without_default)]
    pub fn new() -> Run {
        Run { state: State::started(SIZES.0, SIZES.1) }
    }

    /// Plays a line.
    pub fn play(&mut self, line: &[u8]) -> Reply {
        match asked(line).map(|asked| asked.make(&mut self.state)) {
            Some(Ok(numbers)) => Reply::Answer(numbers),
            Some(Err(refused)) => Reply::Refused(refused),
            None => Reply::AnotherForm,
        }
    }
}

impl Reply {
    /// What is printed for a line, byte 10 included: the letter, then the answer; or the letter, `!`, the refusal; or `?`.
    pub fn printed(&self, line: &[u8]) -> String {
        let letter = line.first().map_or(' ', |letter| char::from(*letter));
        match self {
            Reply::Answer(numbers) => {
                let numbers: String = numbers.iter().map(|number| format!(" {number}")).collect();
                format!("{letter}{numbers}\n")
            }
            Reply::Refused(refused) => format!("{letter} ! {}\n", refused.0),
            Reply::AnotherForm => "?\n".to_string(),
        }
    }
}

/// All that is printed for an input.
pub fn printed(input: &[u8]) -> String {
    let mut run = Run::new();
    lines(input).map(|line| run.play(line).printed(line)).collect()
}

#[cfg(test)]
mod tests {
    use super::*;

    /// The paper's own sample, in its own words.
    #[test]
    fn the_sample() {
        let input = b"q 1 5 0 vip-7\nq 2 5 0 vip-7\nq 2 5 4 vip-7\np 1\nn 2\nn 2\n";
        assert_eq!(printed(input), "q 1 1\nq 2 2\nq ! 13\np 1 0 0\nn 1 2 0\nn 0 0 0\n");
    }

    #[test]
    fn lines_end_with_byte_10_or_the_input() {
        let of = |input: &'static [u8]| lines(input).collect::<Vec<_>>();
        assert_eq!(of(b""), [] as [&[u8]; 0]);
        assert_eq!(of(b"\n"), [b""]);
        assert_eq!(of(b"a\n\nb"), [&b"a"[..], b"", b"b"]);
        assert_eq!(of(b"a\r\nb\n"), [&b"a\r"[..], b"b"]);
    }

    #[test]
    fn the_name_is_all_after_the_fourth_space() {
        let name = |line: &'static [u8]| match asked(line) {
            Some(Asked::Request { client: 1, mode: 5, flags: 0, name }) => Some(name),
            _ => None,
        };
        assert_eq!(name(b"q 1 5 0 a b"), Some(&b"a b"[..]));
        assert_eq!(name(b"q 1 5 0  a "), Some(&b" a "[..]));
        assert_eq!(name(b"q 1 5 0 "), Some(&b""[..]));
        assert_eq!(name(b"q 1 5 0"), None);
    }

    #[test]
    fn numbers_have_1_to_9_digits() {
        assert_eq!([&b"0"[..], b"007", b"999999999"].map(number), [Some(0), Some(7), Some(999_999_999)]);
        assert!([&b""[..], b"1234567890", b"0000000001", b"+1", b"-1", b"1a", b" 1"].into_iter().all(|field| number(field).is_none()));
    }

    #[test]
    fn a_line_has_at_most_256_bytes() {
        let line = |name: usize| [b"q 1 5 0 ".to_vec(), vec![b'n'; name]].concat();
        let most = LONGEST - line(0).len();
        assert!(asked(&line(most)).is_some() && asked(&line(most + 1)).is_none());
    }
}
