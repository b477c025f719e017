//! Inputs for lockplay: chosen ones, and random scripts of calls of which some are malformed.

use crate::generate::Game;
use crate::lines::{AT_ONCE, BAD_NUMBERS, line_of, places, takes, wrong_counts};
use crate::rng::Rng;
use model::layout::NAME_BYTES;
use model::lockplay::{LONGEST, Run};

/// An input, and what it is.
pub struct Input {
    pub what: String,
    pub bytes: Vec<u8>,
}

impl Input {
    pub fn new(what: &str, bytes: Vec<u8>) -> Input {
        Input { what: what.to_string(), bytes }
    }
}

const SAMPLE: &[u8] = b"q 1 5 0 vip-7\nq 2 5 0 vip-7\nq 2 5 4 vip-7\np 1\nn 2\nn 2\n";

/// Lines, each ended by byte 10.
fn ended(lines: impl IntoIterator<Item = Vec<u8>>) -> Vec<u8> {
    lines.into_iter().flat_map(|line| [line, vec![10]].concat()).collect()
}

/// A call with so many numbers; a request has a name as well, if its numbers are all there.
fn numbers(letter: u8, count: usize, at: impl Fn(usize) -> Option<&'static str>) -> Vec<u8> {
    let fields = (1..=count).map(|place| format!(" {}", at(place).unwrap_or("1")));
    let name = if letter == b'q' && Some(count) == takes(letter) { " a" } else { "" };
    format!("{}{}{name}", char::from(letter), fields.collect::<String>()).into_bytes()
}

/// Every number of every letter, wrong in every way.
fn bad_numbers() -> Vec<u8> {
    let line = |(letter, place): (u8, usize), text| numbers(letter, takes(letter).unwrap_or(0), |at| (at == place).then_some(text));
    ended(places().flat_map(|place| BAD_NUMBERS.iter().map(move |(_, text, _)| line(place, *text))))
}

/// Every letter with too few and too many numbers. A request without its name ends with its last number.
fn bad_counts() -> Vec<u8> {
    let line = |(letter, count)| {
        numbers(letter, count, |_| None).strip_suffix(b" a").map_or_else(|| numbers(letter, count, |_| None), <[u8]>::to_vec)
    };
    ended(wrong_counts().map(line))
}

/// A request without its name.
const UNNAMED: &[u8] = b"q 1 5 0 ";

/// The length of a request whose name has the most bytes.
const LONGEST_NAMED: usize = UNNAMED.len() + NAME_BYTES;

/// A request whose line has so many bytes.
fn request_of(length: usize) -> Vec<u8> {
    [UNNAMED.to_vec(), vec![b'l'; length.saturating_sub(UNNAMED.len())]].concat()
}

/// Lines of lengths around what a name and a line may have, what is read at once and what a pipe holds.
fn lengths() -> Vec<u8> {
    let around_name = [UNNAMED.len(), UNNAMED.len() + 1, LONGEST_NAMED, LONGEST_NAMED + 1];
    let around_line = [LONGEST - 1, LONGEST, LONGEST + 1, LONGEST + 2];
    let larger = [AT_ONCE - 1, AT_ONCE, AT_ONCE + 1, 2 * AT_ONCE, 5000, 70_000];
    let lengths = around_name.into_iter().chain(around_line).chain(larger);
    let blank = |length: usize| [b"d".to_vec(), vec![b' '; length - 1]].concat();
    ended(lengths.flat_map(|length| [request_of(length), blank(length), b"d".to_vec()]))
}

/// Lines that lie across the end of the bytes that are read at once, at each of their bytes. They begin 24 bytes before it.
fn edges() -> Vec<Input> {
    let none = b"n 1\n";
    let before = none.repeat((AT_ONCE - 24) / none.len());
    let input = |length: usize| [before.clone(), ended([request_of(length), b"q 2 0 0 a".to_vec(), b"n 2".to_vec()])].concat();
    (UNNAMED.len()..40).map(|length| Input::new("a line across 1,024 bytes", input(length))).collect()
}

/// Each byte as a line, as a name, as a number, behind a number and as a letter.
fn bytes() -> Vec<u8> {
    let with = |byte: u8| [vec![byte], [&b"q 1 0 0 "[..], &[byte]].concat(), [b"p ", &[byte][..]].concat(), [b"n 1", &[byte][..]].concat()];
    let letter = |byte: u8| [&[byte][..], b" 1"].concat();
    ended((0..=255).flat_map(|byte| with(byte).into_iter().chain([letter(byte), b"p 1".to_vec()])))
}

/// Inputs whose last line has no byte 10.
fn last_lines() -> Vec<Input> {
    let lasts: [&[u8]; 12] = [b"q 1 5 0 a", b"q 1 5 0 ", b"c 1 1 0 0", b"r 1 1 0", b"x 1 1", b"p 1", b"d", b"n 1", b"z", b"q", b" ", b"\r"];
    let long = [request_of(LONGEST), request_of(LONGEST + 1), request_of(3000), b"q 1 5 0 n".repeat(200)];
    let all = lasts.iter().map(|last| last.to_vec()).chain(long);
    let input = |last: Vec<u8>| [Input::new("a last line alone", last.clone()), Input::new("a last line", [SAMPLE, &last].concat())];
    all.flat_map(input).collect()
}

/// All chosen inputs.
pub fn chosen() -> Vec<Input> {
    let lines_of_pipe = b"q 1 0 0 a\nr 1 1 0\n".repeat(6000);
    let plain = [
        ("nothing", Vec::new()),
        ("byte 10", b"\n".to_vec()),
        ("empty lines", b"\n\n\n".to_vec()),
        ("an empty line at the end", b"d\n\n".to_vec()),
        ("the sample", SAMPLE.to_vec()),
        ("the sample with byte 13", SAMPLE.split(|byte| *byte == 10).collect::<Vec<_>>().join(&b"\r\n"[..])),
        ("wrong numbers", bad_numbers()),
        ("wrong counts of numbers", bad_counts()),
        ("lines of many lengths", lengths()),
        ("each byte", bytes()),
        ("denied locks polled out of order", DENIED.to_vec()),
        ("requests behind a wait chain", BEHIND.to_vec()),
        ("purges of blocked locks and of completions unread", PURGED.to_vec()),
        ("more than a pipe holds", lines_of_pipe),
    ];
    plain.into_iter().map(|(what, bytes)| Input::new(what, bytes)).chain(edges()).chain(last_lines()).collect()
}

/// Three clients are denied requests that stand in their own way, and the second is polled first: a mark, then the denial.
const DENIED: &[u8] = b"q 1 5 0 a\nq 2 5 0 b\nq 3 5 0 c\nq 1 5 0 a\nq 2 5 0 b\nq 3 5 0 c\nd\nd\nd\nd\nn 2\nn 2\nn 1\nn 1\nn 3\nn 3\nn 3\n";

/// EX waits for a PR, and a later PR behind it, or is refused with flag 4; NL goes past both. Each release grants the next one alone. Then
/// another EX waits for this PR, whose client asks again: a deadlock.
const BEHIND: &[u8] = b"q 1 3 0 a\nq 2 5 0 a\nq 3 3 4 a\nq 3 3 0 a\nq 4 0 0 a\nq 4 0 4 a\nr 1 1 0\nn 3\nn 2\nr 2 2 0\nn 2\nn 3\n\
q 5 5 0 a\nq 3 3 0 a\nd\nn 5\nn 3\nn 3\n";

/// Client 1 is purged with completions 1, 2 and 3 unread and two marks alone. Then it and client 2 have a denied request and others that
/// wait for their own locks, and client 3 has nothing.
const PURGED: &[u8] = b"q 1 0 0 a\nq 2 5 0 a\nc 1 1 3 0\nq 1 5 0 b\nq 1 5 0 b\nd\nr 2 2 0\nq 1 3 0 c\nq 1 3 0 c\nc 1 5 5 0\nd\np 1\n\
q 1 5 0 a\nq 1 5 0 a\nd\nq 2 5 0 b\nq 2 5 0 b\nd\nq 1 5 0 a\nq 2 5 0 b\nq 2 5 0 b\np 3\np 1\np 2\n";

/// A random script: calls that go by what the tables hold, and lines with something wrong, more often in some scripts than in others.
pub fn random(seed: u64) -> Input {
    let mut rng = Rng::new(seed);
    let mut game = Game::of_lines(rng.next());
    let mut run = Run::new();
    let wrong = *rng.pick(&[0, 3, 15, 60]);
    let count = rng.between(1, 120);
    let mut bytes = Vec::new();
    for _ in 0..count {
        let call = line_of(&game.next_line(&run.state)).unwrap_or_default();
        let line = if rng.percent(wrong) { spoiled(&mut rng, call) } else { call };
        // A name may have a byte 10 and be two lines.
        model::lockplay::lines(&line).for_each(|line| {
            run.play(line);
        });
        bytes.extend(line);
        bytes.push(10);
    }
    if rng.percent(25) {
        bytes.pop();
    }
    Input { what: format!("the script of seed {seed}"), bytes }
}

/// A line with something wrong, or at least unusual.
fn spoiled(rng: &mut Rng, mut line: Vec<u8>) -> Vec<u8> {
    let at = rng.below(line.len().max(1)).min(line.len());
    match rng.below(18) {
        0 => line.insert(at, b' '),
        1 => line.insert(at, *rng.pick(b"\t\r\0+-az.")),
        2 => line.insert(at, rng.next() as u8),
        3 => line.truncate(at),
        4 => line.push(*rng.pick(b" \r\n")),
        5 => line.extend(b" 1"),
        6 => line.make_ascii_uppercase(),
        7 => line.clear(),
        8 => line.extend(rng.bytes(300)),
        9 => {
            let length = *rng.pick(&[LONGEST_NAMED, LONGEST_NAMED + 1, LONGEST, LONGEST + 1, AT_ONCE, 3000]);
            line.resize(length, b'n');
        }
        10 | 11 => line = with_number(rng, &line, |field| padded(field, 9)),
        12 => line = with_number(rng, &line, |field| padded(field, 10)),
        13 => line = line.iter().map(|byte| if *byte == b' ' { b'\t' } else { *byte }).collect(),
        14 => line.retain(|byte| *byte != b' '),
        15 => line.insert(0, line.first().copied().unwrap_or(b'd')),
        16 => line = with_number(rng, &line, |_| b"999999999".to_vec()),
        _ => {
            let length = rng.below(12);
            line = rng.bytes(length);
        }
    }
    line
}

/// A line in which one of the fields after the letter is another.
fn with_number(rng: &mut Rng, line: &[u8], other: impl Fn(&[u8]) -> Vec<u8>) -> Vec<u8> {
    let mut fields: Vec<Vec<u8>> = line.split(|byte| *byte == b' ').map(<[u8]>::to_vec).collect();
    let place = rng.below(fields.len());
    if place > 0 {
        fields[place] = other(&fields[place]);
    }
    fields.join(&b' ')
}

/// A number with zeros in front, so that it has so many digits.
fn padded(field: &[u8], digits: usize) -> Vec<u8> {
    [vec![b'0'; digits.saturating_sub(field.len())], field.to_vec()].concat()
}
