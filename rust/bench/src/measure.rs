//! Timing: the same calls on the library and on `flat`, by turns.

use crate::beside::{Beside, REFUSED};
use crate::call::{Areas, Call, Flat, Library, Manager, Tables};
use crate::fill::{Fill, Size, filled};
use crate::rows::Row;
use crate::worst::Worst;
use std::hint::black_box;
use std::time::{Duration, Instant};

/// The time of a call on both sides.
#[derive(Clone, Copy)]
pub struct Cell {
    /// Nanoseconds for each call.
    pub library: f64,
    pub flat: f64,
    /// The library's time over flat's: the middle one of the turns' ratios, which a busy machine disturbs least.
    pub ratio: f64,
}

/// A call, and the check that it begins with.
#[derive(Clone, Copy)]
pub struct Whole {
    pub check: Cell,
    pub call: Cell,
}

/// How long to measure.
#[derive(Clone, Copy)]
pub struct Effort {
    pub time: Duration,
    pub most_turns: usize,
}

const LEAST_TURNS: usize = 5;

/// How many calls are timed at once: enough for the clock, and so few that their tables stay near.
fn batch(size: Size) -> usize {
    match size.locks {
        0..=64 => 64,
        65..=512 => 8,
        _ => 2,
    }
}

/// Times a row on tables of a size and filling.
pub fn measure(row: &Row, size: Size, fill: Fill, effort: Effort) -> Cell {
    let (base, calls) = row.calls(&filled(size, fill), batch(size));
    let copies = if row.is_list() { 1 } else { calls.len() };
    measure_calls(row.title, base, calls, copies, effort)
}

/// Times a call on a name that so many locks hold, and right before it one that is refused, which takes the check and no more: a machine isn't
/// always as quick, nor is the check in each of the library's objects.
pub fn measure_beside(beside: &Beside, holders: u32, effort: Effort) -> Whole {
    let (base, call) = beside.tables(holders);
    let check = measure_calls("a refused release", base.clone(), vec![REFUSED], 1, effort);
    Whole { check, call: measure_calls(beside.title, base, vec![call], 1, effort) }
}

/// Times a break on some of its worst tables.
pub fn measure_worst(worst: &Worst, effort: Effort) -> Cell {
    measure_calls(worst.title, worst.tables(), vec![Call::Break], 1, effort)
}

/// Times calls on so many copies of some tables.
fn measure_calls(title: &str, base: Tables, calls: Vec<Call>, copies: usize, effort: Effort) -> Cell {
    let mut bench = Bench { areas: Areas::new(&base), copies: vec![base.clone(); copies], base, calls };
    bench.check(title);
    let began = Instant::now();
    let mut turns = Vec::new();
    while turns.len() < LEAST_TURNS || (turns.len() < effort.most_turns && began.elapsed() < effort.time) {
        // The side that goes first changes, so that neither finds the caches better prepared.
        let turn = if turns.len() % 2 == 0 {
            let library = bench.time::<Library>();
            (library, bench.time::<Flat>())
        } else {
            let flat = bench.time::<Flat>();
            (bench.time::<Library>(), flat)
        };
        turns.push(turn);
    }
    Cell {
        library: median(turns.iter().map(|turn| turn.0)),
        flat: median(turns.iter().map(|turn| turn.1)),
        ratio: median(turns.iter().map(|turn| turn.0 / turn.1)),
    }
}

struct Bench {
    base: Tables,
    calls: Vec<Call>,
    /// Tables for each call, or one for all of a list.
    copies: Vec<Tables>,
    areas: Areas,
}

impl Bench {
    /// Makes all calls on fresh copies: nanoseconds for each call.
    fn time<M: Manager>(&mut self) -> f64 {
        self.refresh();
        let copies = self.copies.len();
        let began = Instant::now();
        for (at, call) in self.calls.iter().enumerate() {
            black_box(M::make(black_box(call), &mut self.copies[at % copies], &mut self.areas));
        }
        began.elapsed().as_nanos() as f64 / self.calls.len() as f64
    }

    fn refresh(&mut self) {
        self.copies.iter_mut().for_each(|copy| copy.copy_from(&self.base));
    }

    /// Both sides must do the same, or there is nothing to compare.
    fn check(&mut self, title: &str) {
        let library = self.results::<Library>();
        let flat = self.results::<Flat>();
        assert!(library == flat, "`{title}`: the library and flat differ");
    }

    /// The answers of one side, and the tables after.
    fn results<M: Manager>(&mut self) -> (Vec<u64>, Vec<Tables>) {
        self.refresh();
        let copies = self.copies.len();
        let calls = self.calls.iter().enumerate();
        let answers = calls.map(|(at, call)| M::make(call, &mut self.copies[at % copies], &mut self.areas)).collect();
        (answers, self.copies.clone())
    }
}

/// The middle one of some numbers.
pub fn median(numbers: impl Iterator<Item = f64>) -> f64 {
    let mut sorted: Vec<f64> = numbers.collect();
    sorted.sort_by(f64::total_cmp);
    sorted.get(sorted.len() / 2).copied().unwrap_or(f64::NAN)
}
