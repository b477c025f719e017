//! Compares the program lockplay with the model: what it prints for chosen and random inputs, whichever way they reach it.

use crate::inputs::{self, Input};
use crate::lines::{AT_ONCE, LineCounts};
use crate::play::shrink;
use crate::program::{Program, Way, pieces};
use crate::rng::Rng;
use crate::tally::Tally;
use std::fmt;

/// What a run of the program met, besides its lines.
const MET: &[&str] = &[
    "an empty input",
    "an input of one byte 10",
    "an input that byte 10 ends",
    "an input that no byte 10 ends",
    "an input over 1,024 bytes",
    "an input over 65,536 bytes",
    "byte 10 is byte 1,024 of the input",
    "a line across bytes 1,024 and 1,025 of the input",
    "a file",
    "a pipe",
    "talk: each line is answered before the next one is written",
    "pieces: one byte each",
    "pieces: one ends within a line",
    "pieces: one ends before byte 10",
    "pieces: one ends with byte 10",
    "pieces: one is byte 10 alone",
    "pieces: one has two lines or more",
];

/// What occurred.
pub struct Counts {
    pub lines: LineCounts,
    met: Tally<&'static str>,
    runs: u64,
}

impl Default for Counts {
    fn default() -> Counts {
        Counts { lines: LineCounts::default(), met: Tally::of(MET.iter().copied()), runs: 0 }
    }
}

impl Counts {
    pub fn missing(&self) -> Vec<String> {
        self.lines.missing().into_iter().chain(self.met.missing()).collect()
    }

    fn add_input(&mut self, input: &[u8]) {
        let across = input.len() > AT_ONCE && input[AT_ONCE - 1] != 10;
        let so = [
            input.is_empty(),
            input == [10],
            input.ends_with(&[10]),
            !input.is_empty() && !input.ends_with(&[10]),
            input.len() > AT_ONCE,
            input.len() > 65_536,
            input.get(AT_ONCE - 1) == Some(&10),
            across && input[AT_ONCE] != 10,
        ];
        self.met.add_all(MET.iter().zip(so).filter(|(_, so)| *so).map(|(what, _)| *what));
    }

    fn add_way(&mut self, input: &[u8], way: &Way) {
        self.runs += 1;
        let pieces = match way {
            Way::Pieces(sizes) => pieces(input, sizes),
            _ => Vec::new(),
        };
        let one = |fits: fn(&[u8], &[u8]) -> bool| pieces.windows(2).any(|two| fits(two[0], two[1]));
        let so = [
            *way == Way::File,
            *way == Way::Pipe,
            *way == Way::Talk,
            pieces.len() > 1 && pieces.iter().all(|piece| piece.len() == 1),
            one(|piece, next| !piece.ends_with(&[10]) && next[0] != 10),
            one(|piece, next| !piece.ends_with(&[10]) && next[0] == 10),
            one(|piece, _| piece.ends_with(&[10])),
            one(|piece, _| piece == [10]),
            one(|piece, _| piece.iter().filter(|byte| **byte == 10).count() >= 2),
        ];
        self.met.add_all(MET[8..].iter().zip(so).filter(|(_, so)| *so).map(|(what, _)| *what));
    }
}

impl fmt::Display for Counts {
    fn fmt(&self, f: &mut fmt::Formatter) -> fmt::Result {
        write!(f, "{}inputs, and the ways in which they came\n{}", self.lines, self.met.lines())
    }
}

/// A program that printed something else than the model.
pub struct Failed {
    what: String,
    input: Vec<u8>,
    way: Way,
    difference: String,
}

/// Where two outputs differ first.
fn difference(expected: &[u8], got: &Result<Vec<u8>, String>) -> Option<(usize, String)> {
    let got = match got {
        Ok(got) if got == expected => return None,
        Ok(got) => got,
        Err(why) => return Some((usize::MAX, why.clone())),
    };
    let lines =
        |printed: &[u8]| printed.split_inclusive(|byte| *byte == 10).map(|line| line.escape_ascii().to_string()).collect::<Vec<_>>();
    let (expected, got) = (lines(expected), lines(got));
    let at = (0..).find(|at| expected.get(*at) != got.get(*at))?;
    let shown = |lines: &[String]| lines.get(at).map_or("nothing".to_string(), |line| format!("\"{line}\""));
    Some((at, format!("line {}: the model prints {}, the program {}", at + 1, shown(&expected), shown(&got))))
}

fn compare(program: &dyn Program, input: &[u8], way: &Way) -> Option<(usize, String)> {
    difference(model::lockplay::printed(input).as_bytes(), &program.run(input, way))
}

/// Compares a program with the model on all chosen inputs, some scripts, and random ones.
pub fn play(program: &dyn Program, scripts: Vec<Input>, runs: u64, seed: u64) -> Result<Counts, Box<Failed>> {
    let mut counts = Counts::default();
    let chosen = scripts.into_iter().chain(inputs::chosen());
    let chosen = chosen.map(|input| (ways(&input.bytes), input));
    let random = (0..runs).map(|run| {
        let seed = Rng::game_seed(seed, run);
        let input = inputs::random(seed);
        (vec![random_way(&mut Rng::new(!seed))], input)
    });
    for (ways, input) in chosen.chain(random) {
        counts.lines.play(&input.bytes);
        counts.add_input(&input.bytes);
        for way in ways {
            counts.add_way(&input.bytes, &way);
            if let Some((_, difference)) = compare(program, &input.bytes, &way) {
                return Err(Box::new(Failed { what: input.what, input: input.bytes, way, difference }));
            }
        }
    }
    Ok(counts)
}

/// The ways for a chosen input. Each line of a talk and each piece takes two turns of the processor, so a long input has fewer of them.
fn ways(input: &[u8]) -> Vec<Way> {
    let size = input.len().div_ceil(400).min(200);
    let mut ways = vec![Way::File, Way::Pipe, Way::Pieces(vec![size]), Way::Pieces(vec![200])];
    if input.len() < 1000 {
        ways.push(Way::Talk);
    }
    ways
}

fn random_way(rng: &mut Rng) -> Way {
    match rng.below(8) {
        0 => Way::File,
        1 | 2 => Way::Talk,
        3 => Way::Pipe,
        4 => Way::Pieces(vec![1]),
        _ => {
            let most = *rng.pick(&[3, 20, 200]);
            Way::Pieces((0..rng.between(1, 400)).map(|_| rng.between(1, most)).collect())
        }
    }
}

impl Failed {
    /// Tells the difference, and fewer lines that show one.
    pub fn report(&self, program: &dyn Program) {
        let way = match &self.way {
            Way::Pieces(_) => "in pieces".to_string(),
            way => format!("by {way:?}").to_lowercase(),
        };
        println!("DIFFERENCE on {}, {} bytes {way}: {}", self.what, self.input.len(), self.difference);
        let lines: Vec<&[u8]> = self.input.split_inclusive(|byte| *byte == 10).collect();
        let fails = |lines: &[&[u8]]| compare(program, &lines.concat(), &self.way).map(|(at, _)| at.min(lines.len().saturating_sub(1)));
        // A program that hangs takes its time for each try.
        let tries = if self.difference.starts_with("line ") { 300 } else { 5 };
        let short = shrink(&lines, tries, fails);
        println!("the same or another difference shows for these {} lines:", short.len());
        short.iter().for_each(|line| println!("  {}", line.escape_ascii()));
        if let Some((_, difference)) = compare(program, &short.concat(), &self.way) {
            println!("  {difference}");
        }
    }
}

impl Counts {
    pub fn runs(&self) -> u64 {
        self.runs
    }
}

#[cfg(test)]
mod tests {
    use super::*;
    use model::lockplay::{LONGEST, lines, printed};

    /// A program that is the model, but for what it does to an input or to what is printed.
    struct Faulty {
        reads: fn(&[u8]) -> Vec<u8>,
        prints: fn(&str) -> String,
    }

    impl Program for Faulty {
        fn run(&self, input: &[u8], _: &Way) -> Result<Vec<u8>, String> {
            Ok((self.prints)(&printed(&(self.reads)(input))).into_bytes())
        }
    }

    /// An input in which each line is changed.
    fn each(input: &[u8], change: impl Fn(&[u8]) -> Vec<u8>) -> Vec<u8> {
        lines(input).flat_map(|line| [change(line), vec![10]].concat()).collect()
    }

    fn found(reads: fn(&[u8]) -> Vec<u8>, prints: fn(&str) -> String) -> bool {
        play(&Faulty { reads, prints }, Vec::new(), 50, 1).is_err()
    }

    #[test]
    fn the_model_is_compared_with_itself_and_everything_occurs() {
        let program = Faulty { reads: <[u8]>::to_vec, prints: str::to_string };
        let script = Input::new("lockplay's script in the gate", include_bytes!("../../../crates/lockplay/stdin").to_vec());
        let counts = play(&program, vec![script], 100, 1).unwrap_or_else(|failed| panic!("{}", failed.difference));
        assert_eq!(counts.missing(), Vec::<String>::new());
        assert_eq!(counts.lines.calls().unexpected(), Vec::<String>::new());
    }

    #[test]
    fn mistakes_are_found() {
        let same: fn(&str) -> String = str::to_string;
        assert!(!found(<[u8]>::to_vec, same));
        assert!(found(|input| each(input, |line| line.strip_suffix(b"\r").unwrap_or(line).to_vec()), same), "byte 13 is cut");
        assert!(found(|input| each(input, |line| line[..line.len().min(LONGEST)].to_vec()), same), "long lines are cut");
        assert!(found(|input| each(input, <[u8]>::to_ascii_lowercase), same), "capital letters are taken");
        assert!(found(|input| each(input, |line| line.trim_ascii_end().to_vec()), same), "spaces at the end are cut");
        assert!(found(|input| input.iter().copied().filter(|byte| *byte != 0).collect(), same), "zero bytes are left out");
        assert!(found(|input| input[..input.iter().rposition(|byte| *byte == 10).map_or(0, |at| at + 1)].to_vec(), same), "the last line");
        assert!(found(|input| [input, b"\n"].concat(), same), "a further line");
        assert!(found(<[u8]>::to_vec, |printed| printed.replace(" ! 13", " ! 12")), "another refusal");
        assert!(found(<[u8]>::to_vec, |printed| printed.trim_end().to_string()), "no byte 10 at the end");
        assert!(found(<[u8]>::to_vec, |printed| printed.replace("n 0 0 0", "n 0 0")), "a field less");
        assert!(found(<[u8]>::to_vec, |printed| printed.replace("n 0 1 5", "n 0 1 0")), "another mark");
        assert!(found(<[u8]>::to_vec, |printed| printed.replace("p 4 2 1", "p 4 1 2")), "purge's counts in another order");
        assert!(found(<[u8]>::to_vec, |printed| printed.replace("p 0 0 0", "p 0")), "a purge without its further counts");
    }

    #[test]
    fn a_difference_is_told_and_cut_short() {
        let program = Faulty { reads: <[u8]>::to_vec, prints: |printed| printed.replace("d 0", "d") };
        let failed = play(&program, Vec::new(), 50, 1).err().expect("a mistake");
        assert!(failed.difference.contains("the model prints \"d 0"), "{}", failed.difference);
    }
}
