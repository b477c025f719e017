//! The lines of lockplay by their kinds. Every kind must occur, or a comparison of lockplay has shown less than it claims.

use crate::call::{Call, Entry};
use crate::counts::CallCounts;
use crate::events::Event;
use crate::manager::{Tables, accepted, refused};
use crate::refusals::Given;
use crate::tally::Tally;
use model::layout::NAME_BYTES;
use model::lockplay::{Asked, LONGEST, Reply, Run, asked, lines};
use std::fmt;

/// A line, and what is known of it.
pub struct Seen<'a> {
    line: &'a [u8],
    asked: Option<Asked<'a>>,
    /// Whether byte 10 ends it, and not the end of input.
    ended: bool,
}

impl<'a> Seen<'a> {
    /// The name of a request.
    fn name(&self) -> Option<&'a [u8]> {
        match self.asked {
            Some(Asked::Request { name, .. }) => Some(name),
            _ => None,
        }
    }

    fn named(&self, fits: impl Fn(&[u8]) -> bool) -> bool {
        self.name().is_some_and(fits)
    }

    /// Whether it has another form.
    fn other(&self) -> bool {
        self.asked.is_none()
    }

    /// The fields after the letter; a request's name isn't one of them.
    fn fields(&self) -> Vec<&'a [u8]> {
        let most = if self.line.starts_with(b"q ") { 4 } else { usize::MAX };
        self.line.split(|byte| *byte == b' ').take(most).skip(1).collect()
    }

    /// Whether a number of a call is of some kind.
    fn number(&self, fits: impl Fn(&[u8]) -> bool) -> bool {
        !self.other() && self.fields().into_iter().any(fits)
    }

    /// Whether it would be a call if it were changed.
    fn but_for(&self, change: impl Fn(&[u8]) -> Vec<u8>) -> bool {
        let changed = change(self.line);
        self.other() && changed != self.line && asked(&changed).is_some()
    }
}

const LETTERS: &[u8] = b"qcrxpdn";

/// How many bytes lockplay reads at once, at most.
pub const AT_ONCE: usize = 1024;

/// A kind of line: its label, and which lines are of it.
type Kind = (&'static str, fn(&Seen) -> bool);

/// The kinds of lines.
const KINDS: &[Kind] = &[
    ("q: a name", |s| s.named(|name| !name.is_empty())),
    ("q: an empty name", |s| s.named(|name| name.is_empty())),
    ("q: a name of 64 bytes", |s| s.named(|name| name.len() == NAME_BYTES)),
    ("q: a name of 65 bytes", |s| s.named(|name| name.len() == NAME_BYTES + 1)),
    ("q: a name of more than 65 bytes", |s| s.named(|name| name.len() > NAME_BYTES + 1)),
    ("q: a name with a space in it", |s| s.named(|name| name.trim_ascii() == name && name.contains(&b' '))),
    ("q: a name with two spaces side by side", |s| s.named(|name| name.windows(2).any(|two| two == b"  "))),
    ("q: a name that begins with a space", |s| s.named(|name| name.starts_with(b" "))),
    ("q: a name that ends with a space", |s| s.named(|name| name.ends_with(b" "))),
    ("q: a name with a tab", |s| s.named(|name| name.contains(&b'\t'))),
    ("q: a name that ends with byte 13", |s| s.named(|name| name.ends_with(b"\r"))),
    ("q: a name of a zero byte", |s| s.named(|name| name == [0])),
    ("q: a name of two zero bytes", |s| s.named(|name| name == [0, 0])),
    ("q: a name with bytes above 127", |s| s.named(|name| !name.is_ascii())),
    ("c: a call", |s| matches!(s.asked, Some(Asked::Convert { .. }))),
    ("r: a call", |s| matches!(s.asked, Some(Asked::Release { .. }))),
    ("x: a call", |s| matches!(s.asked, Some(Asked::Cancel { .. }))),
    ("p: a call", |s| matches!(s.asked, Some(Asked::Purge { .. }))),
    ("d: a call", |s| s.asked == Some(Asked::Break)),
    ("n: a call", |s| matches!(s.asked, Some(Asked::Poll { .. }))),
    ("a number with leading zeros", |s| s.number(|field| field.len() > 1 && field[0] == b'0')),
    ("a number of nine digits", |s| s.number(|field| field.len() == 9 && field[0] != b'0')),
    ("a number of nine digits that begins with zeros", |s| s.number(|field| field.len() == 9 && field[0] == b'0')),
    ("the number 999999999", |s| s.number(|field| field == b"999999999")),
    ("a call of 256 bytes", |s| !s.other() && s.line.len() == LONGEST),
    ("a call that the end of input ends", |s| !s.other() && !s.ended),
    ("other: an empty line", |s| s.line.is_empty()),
    ("other: a letter that is none of the seven", |s| s.line.starts_with(b"z ")),
    ("other: a capital letter", |s| s.but_for(<[u8]>::to_ascii_lowercase)),
    ("other: two letters", |s| s.line.len() > 1 && LETTERS.contains(&s.line[0]) && s.line[0] == s.line[1]),
    ("other: a letter and no space after it", |s| {
        s.but_for(|line| [&line[..line.len().min(1)], b" ", &line[line.len().min(1)..]].concat())
    }),
    ("other: a space in front", |s| s.but_for(|line| line.strip_prefix(b" ").unwrap_or(line).to_vec())),
    ("other: a space at the end", |s| s.but_for(|line| line.strip_suffix(b" ").unwrap_or(line).to_vec())),
    ("other: two spaces side by side", |s| s.but_for(|line| replaced(line, b"  ", b" "))),
    ("other: a tab in place of a space", |s| s.but_for(|line| replaced(line, b"\t", b" "))),
    ("other: byte 13 at the end", |s| s.but_for(|line| line.strip_suffix(b"\r").unwrap_or(line).to_vec())),
    ("other: a zero byte", |s| s.but_for(|line| replaced(line, b"\0", b""))),
    ("other: a byte above 127", |s| s.other() && !s.line.is_ascii()),
    ("other: a printed line", |s| s.line == b"?"),
    ("other: 256 bytes", |s| s.other() && s.line.len() == LONGEST),
    ("other: a call but for its 257 bytes", |s| s.line.len() == LONGEST + 1 && s.but_for(|line| line[..LONGEST].to_vec())),
    ("other: over 1,024 bytes", |s| s.line.len() > AT_ONCE),
    ("other: over 4,096 bytes", |s| s.line.len() > 4 * AT_ONCE),
];

/// A line with one piece replaced wherever it stands.
fn replaced(line: &[u8], piece: &[u8], by: &[u8]) -> Vec<u8> {
    let mut made = Vec::new();
    let mut rest = line;
    while !rest.is_empty() {
        match rest.strip_prefix(piece) {
            Some(behind) => {
                made.extend(by);
                rest = behind;
            }
            None => {
                made.push(rest[0]);
                rest = &rest[1..];
            }
        }
    }
    made
}

/// What can be wrong with a number: its label, a text that is so, and which texts are.
type Bad = (&'static str, &'static str, fn(&[u8]) -> bool);

/// What can be wrong with one number of a line that is a call otherwise.
pub const BAD_NUMBERS: &[Bad] = &[
    ("no digits", "", |field| field.is_empty()),
    ("ten digits", "1234567890", |field| field.len() == 10 && digits(field) && field[0] != b'0'),
    ("ten digits that begin with zeros", "0000000001", |field| field.len() == 10 && digits(field) && field[0] == b'0'),
    ("a plus", "+1", |field| field.strip_prefix(b"+").is_some_and(digits)),
    ("a minus", "-1", |field| field.strip_prefix(b"-").is_some_and(digits)),
    ("a letter", "a", |field| field == b"a"),
    ("a letter behind a digit", "1a", |field| field.strip_suffix(b"a").is_some_and(digits)),
    ("a point", "1.", |field| field.strip_suffix(b".").is_some_and(digits)),
    ("base sixteen", "0x1", |field| field.strip_prefix(b"0x").is_some_and(digits)),
    ("a tab in front", "\t1", |field| field.strip_prefix(b"\t").is_some_and(digits)),
    ("byte 13 behind", "1\r", |field| field.strip_suffix(b"\r").is_some_and(digits)),
    ("a zero byte behind", "1\0", |field| field.strip_suffix(b"\0").is_some_and(digits)),
    ("the byte before the digits", "/", |field| field == b"/"),
    ("the byte after the digits", ":", |field| field == b":"),
];

fn digits(field: &[u8]) -> bool {
    !field.is_empty() && field.iter().all(u8::is_ascii_digit)
}

/// How many numbers a letter takes.
pub fn takes(letter: u8) -> Option<usize> {
    match letter {
        b'c' => Some(4),
        b'q' | b'r' => Some(3),
        b'x' => Some(2),
        b'p' | b'n' => Some(1),
        b'd' => Some(0),
        _ => None,
    }
}

/// The letters and the places of their numbers, from 1.
pub fn places() -> impl Iterator<Item = (u8, usize)> {
    LETTERS.iter().flat_map(|letter| (1..=takes(*letter).unwrap_or(0)).map(|place| (*letter, place)))
}

/// The letters, and counts of numbers that they don't take. A request without a fourth space has up to three numbers and no name.
pub fn wrong_counts() -> impl Iterator<Item = (u8, usize)> {
    let wrong = |letter: u8| {
        let right = takes(letter).unwrap_or(0);
        (0..=right + 2)
            .filter(move |count| if letter == b'q' { *count <= right } else { *count != right })
            .map(move |count| (letter, count))
    };
    LETTERS.iter().copied().flat_map(wrong)
}

/// A line that is another form by one wrong number, or by the count of its numbers.
#[derive(Clone, Copy, Debug, PartialEq, Eq, PartialOrd, Ord)]
pub enum Wrong {
    Number(u8, usize, &'static str),
    Count(u8, usize),
}

impl fmt::Display for Wrong {
    fn fmt(&self, f: &mut fmt::Formatter) -> fmt::Result {
        match self {
            Wrong::Number(letter, place, what) => write!(f, "{}: number {place} has {what}", char::from(*letter)),
            Wrong::Count(letter, count) => write!(f, "{}: {count} numbers", char::from(*letter)),
        }
    }
}

impl Wrong {
    pub fn all() -> impl Iterator<Item = Wrong> {
        let numbers = places().flat_map(|(letter, place)| BAD_NUMBERS.iter().map(move |(what, ..)| Wrong::Number(letter, place, what)));
        numbers.chain(wrong_counts().map(|(letter, count)| Wrong::Count(letter, count)))
    }

    /// What is wrong with a line of another form, if it is one thing of these.
    fn of(seen: &Seen) -> Option<Wrong> {
        let letter = *seen.line.first().filter(|_| seen.other() && seen.line.get(1).is_none_or(|byte| *byte == b' '))?;
        let right = takes(letter)?;
        let fields = seen.fields();
        let good = |field: &&[u8]| digits(field) && field.len() <= 9;
        let spaces = seen.line.iter().filter(|byte| **byte == b' ').count();
        if fields.iter().all(good) {
            return (letter != b'q' || spaces < 4).then_some(Wrong::Count(letter, fields.len())).filter(|_| seen.line.len() <= LONGEST);
        }
        let (place, bad) = fields.iter().enumerate().find(|(_, field)| !good(field))?;
        let alone = fields.len() == right && (letter != b'q' || spaces >= 4) && fields.iter().filter(|field| !good(field)).count() == 1;
        let (what, ..) = BAD_NUMBERS.iter().find(|(.., fits)| fits(bad))?;
        alone.then_some(Wrong::Number(letter, place + 1, what))
    }
}

/// What occurred in the lines of lockplay.
pub struct LineCounts {
    kinds: Tally<&'static str>,
    wrong: Tally<Wrong>,
    calls: CallCounts,
    lines: u64,
}

/// The entries that lockplay has lines for.
const ENTRIES: [Entry; 7] = [Entry::Request, Entry::Convert, Entry::Release, Entry::Cancel, Entry::Purge, Entry::Break, Entry::Poll];

/// Lockplay's tables are sound, and its values are empty.
fn comes(given: &Given) -> bool {
    given.1 != 1 && (given.1 != 7 || given.2 == "no value")
}

/// Whether a branch can be met in lockplay: it is one of its calls', and needs no value and no more than eight locks.
fn met(event: &Event) -> bool {
    let too_much = [
        Event::DeepWaitQueue,
        Event::RequestCountsMost,
        Event::BreakMiddle,
        Event::BreakLarge,
        Event::PurgeManyBlocked,
        Event::PurgeManyUnread,
        Event::ConvertStores,
        Event::ConvertStoresValid,
        Event::ReleaseStores,
        Event::ReleaseStoresEmptied,
    ];
    event.of_call() && !too_much.contains(event)
}

impl Default for LineCounts {
    fn default() -> LineCounts {
        LineCounts {
            kinds: Tally::of(KINDS.iter().map(|(label, _)| *label)),
            wrong: Tally::of(Wrong::all()),
            calls: CallCounts::new(&ENTRIES, Event::ALL.iter().copied().filter(met), comes),
            lines: 0,
        }
    }
}

impl LineCounts {
    /// Plays an input on the model and counts its lines. Gives what is printed.
    pub fn play(&mut self, input: &[u8]) -> String {
        let mut run = Run::new();
        let count = lines(input).count();
        let mut printed = String::new();
        for (at, line) in lines(input).enumerate() {
            let seen = Seen { line, asked: asked(line), ended: at + 1 < count || input.ends_with(&[10]) };
            let before = run.state.clone();
            let reply = run.play(line);
            self.lines += 1;
            self.kinds.add_all(KINDS.iter().filter(|(_, is)| is(&seen)).map(|(label, _)| *label));
            self.wrong.add_all(Wrong::of(&seen));
            if let Some(call) = seen.asked.map(call) {
                self.add_call(&call, &before, &reply, &run);
            }
            printed += &reply.printed(line);
        }
        printed
    }

    fn add_call(&mut self, call: &Call, before: &model::State, reply: &Reply, run: &Run) {
        let answer = match reply {
            Reply::Answer(numbers) => {
                let number = |at: usize| numbers.get(at).copied().unwrap_or(0);
                accepted(number(0), number(1), number(2))
            }
            Reply::Refused(refusal) => refused(refusal.0),
            Reply::AnotherForm => return,
        };
        let (words, slots) = (Vec::new(), Vec::new());
        self.calls.add(call, &Tables { words, slots }, Some(before), answer);
        self.calls.add_events(before, call, answer, &run.state);
    }

    pub fn lines(&self) -> u64 {
        self.lines
    }

    pub fn calls(&self) -> &CallCounts {
        &self.calls
    }

    /// What occurs in a script, of all whose label has a word in it.
    #[cfg(test)]
    pub fn occurring(script: &str, word: &str) -> Vec<String> {
        let mut counts = LineCounts::default();
        let expected = counts.missing();
        counts.play(script.as_bytes());
        let missing = counts.missing();
        expected.into_iter().filter(|what| what.contains(word) && !missing.contains(what)).collect()
    }

    /// All that never occurred.
    pub fn missing(&self) -> Vec<String> {
        let kinds = self.kinds.missing().map(|kind| format!("a line: {kind}"));
        kinds.chain(self.wrong.missing()).chain(self.calls.missing()).collect()
    }
}

impl fmt::Display for LineCounts {
    fn fmt(&self, f: &mut fmt::Formatter) -> fmt::Result {
        writeln!(f, "kinds of lines\n{}other forms by one wrong number, or by the count of numbers", self.kinds.lines())?;
        for (letter, place) in places() {
            let here = self.wrong.iter().filter(|(wrong, _)| matches!(wrong, Wrong::Number(l, p, _) if (*l, *p) == (letter, place)));
            let counts: Vec<String> = here.map(|(_, count)| count.to_string()).collect();
            writeln!(f, "  {} number {place}: {}", char::from(letter), counts.join(" "))?;
        }
        let counts = self.wrong.iter().filter(|(wrong, _)| matches!(wrong, Wrong::Count(..)));
        let counts: Vec<String> = counts.map(|(wrong, count)| format!("{wrong}: {count}")).collect();
        write!(f, "  {}\n{}", counts.join(", "), self.calls)
    }
}

/// The call that a line asks for. Values are empty.
fn call(asked: Asked) -> Call {
    match asked {
        Asked::Request { client, mode, flags, name } => Call::Request { client, mode, flags, name: name.to_vec() },
        Asked::Convert { client, lock, mode, flags } => Call::Convert { client, lock, mode, flags, value: Vec::new() },
        Asked::Release { client, lock, flags } => Call::Release { client, lock, flags, value: Vec::new() },
        Asked::Cancel { client, lock } => Call::Cancel { client, lock },
        Asked::Purge { client } => Call::Purge { client },
        Asked::Break => Call::Break,
        Asked::Poll { client } => Call::Poll { client },
    }
}

/// The line that asks for a call; none if lockplay has no line for it. Its value isn't part of it.
pub fn line_of(call: &Call) -> Option<Vec<u8>> {
    let line = match call {
        Call::Request { client, mode, flags, name } => [format!("q {client} {mode} {flags} ").as_bytes(), name].concat(),
        Call::Convert { client, lock, mode, flags, .. } => format!("c {client} {lock} {mode} {flags}").into_bytes(),
        Call::Release { client, lock, flags, .. } => format!("r {client} {lock} {flags}").into_bytes(),
        Call::Cancel { client, lock } => format!("x {client} {lock}").into_bytes(),
        Call::Purge { client } => format!("p {client}").into_bytes(),
        Call::Break => b"d".to_vec(),
        Call::Poll { client } => format!("n {client}").into_bytes(),
        _ => return None,
    };
    Some(line)
}

#[cfg(test)]
mod tests {
    use super::*;

    fn kinds(line: &[u8]) -> Vec<&'static str> {
        let seen = Seen { line, asked: asked(line), ended: true };
        KINDS.iter().filter(|(_, is)| is(&seen)).map(|(label, _)| *label).collect()
    }

    fn wrong(line: &[u8]) -> Option<String> {
        Wrong::of(&Seen { line, asked: asked(line), ended: true }).map(|wrong| wrong.to_string())
    }

    #[test]
    fn lines_are_of_their_kinds() {
        assert_eq!(kinds(b"q 1 5 0 a b"), ["q: a name", "q: a name with a space in it"]);
        assert_eq!(kinds(b"p 007"), ["p: a call", "a number with leading zeros"]);
        assert_eq!(kinds(b"p1"), ["other: a letter and no space after it"]);
        assert_eq!(kinds(b"D"), ["other: a capital letter"]);
        assert_eq!(kinds(b"d\r"), ["other: byte 13 at the end"]);
        assert_eq!(kinds(b"n  1"), ["other: two spaces side by side"]);
    }

    #[test]
    fn what_is_wrong_is_told() {
        assert_eq!(wrong(b"c 1 2 +3 0").as_deref(), Some("c: number 3 has a plus"));
        assert_eq!(wrong(b"c 1 2 +3 -0"), None, "two things are");
        assert_eq!(wrong(b"q 1 5 a a").as_deref(), Some("q: number 3 has a letter"));
        assert_eq!(wrong(b"q 1 5 0").as_deref(), Some("q: 3 numbers"));
        assert_eq!(wrong(b"x 1 2 3").as_deref(), Some("x: 3 numbers"));
        assert_eq!(wrong(b"d").as_deref(), None);
        assert_eq!(wrong(b"d ").as_deref(), None, "an empty number is no number of d's");
    }

    /// A script must not pass for one that has every form.
    #[test]
    fn a_short_script_lacks_forms() {
        let mut counts = LineCounts::default();
        counts.play(b"q 1 5 0 a\nd\n");
        let missing = counts.missing();
        let lacks = |what: &str| missing.iter().any(|missing| missing == what);
        assert!(lacks("a line: other: an empty line") && lacks("c: number 2 has ten digits") && lacks("q: 3 numbers"));
        assert!(lacks("request refused with 13: behind a conversion alone") && lacks("break: the sweep grants"));
        assert!(!lacks("a line: q: a name") && !lacks("request answering 1"));
    }
}
