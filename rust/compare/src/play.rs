//! Two managers side by side: each call is made on both, all that they give back or hold is compared, and their answers have to add up.

use crate::call::{Call, damage};
use crate::manager::{Listed, Manager, Tables, lock, mark, refusal, refused, result};
use crate::sums::Sums;
use std::fmt;

/// What a call gave back, besides what it did to the tables.
#[derive(Clone, Debug, Default, PartialEq, Eq)]
pub struct Outcome {
    /// The answer; holder's is its own 32 bits.
    pub answer: u64,
    /// The area lent to read.
    pub value: Vec<u8>,
    /// The list lent to list.
    pub entries: Vec<Listed>,
    /// The area lent to image.
    pub area: Vec<u8>,
    /// The tables lent to start or load.
    pub lent: Option<Tables>,
    /// Whether the tables were sound, where they were changed for the call.
    pub sound: Option<bool>,
}

/// Where two managers differ: what the first and the second have. Or where they agree, but their answers don't add up.
#[derive(Clone, Debug)]
pub enum Difference {
    Answer(u64, u64),
    Sound(u32, u32),
    Words { at: usize, first: u32, second: u32 },
    Slots { at: usize, first: u8, second: u8 },
    Value(Vec<u8>, Vec<u8>),
    Entries(Vec<Listed>, Vec<Listed>),
    Area { at: usize, first: u8, second: u8 },
    Sum(String),
}

impl fmt::Display for Difference {
    fn fmt(&self, f: &mut fmt::Formatter) -> fmt::Result {
        match self {
            Difference::Answer(first, second) => write!(f, "answers {} and {}", shown(*first), shown(*second)),
            Difference::Sound(first, second) => write!(f, "soundness {first} and {second}"),
            Difference::Words { at, first, second } => write!(f, "word {at} is {first} and {second}"),
            Difference::Slots { at, first, second } => write!(f, "slot byte {at} is {first} and {second}"),
            Difference::Value(first, second) => write!(f, "value read is {first:?} and {second:?}"),
            Difference::Entries(first, second) => write!(f, "list is {first:?} and {second:?}"),
            Difference::Area { at, first, second } => write!(f, "image byte {at} is {first} and {second}"),
            Difference::Sum(what) => write!(f, "the answers don't add up: {what}"),
        }
    }
}

fn shown(answer: u64) -> String {
    match refusal(answer) {
        Some(number) if answer == refused(number) => format!("refusal {number}"),
        Some(_) => format!("{answer:#018x}, a refusal with something beside its number"),
        None => format!("{answer:#x} ({}, {}, {})", result(answer), lock(answer), mark(answer)),
    }
}

/// The first place where two rows differ. A row that ends first has 0 there.
fn first_unequal<T: Copy + Default + PartialEq>(first: &[T], second: &[T]) -> Option<(usize, T, T)> {
    if first == second {
        return None;
    }
    let length = first.len().max(second.len());
    let at = |row: &[T], at: usize| row.get(at).copied();
    let found = (0..length).find(|place| at(first, *place) != at(second, *place))?;
    Some((found, at(first, found).unwrap_or_default(), at(second, found).unwrap_or_default()))
}

fn compare_tables(first: &Tables, second: &Tables) -> Result<(), Difference> {
    if let Some((at, first, second)) = first_unequal(&first.words, &second.words) {
        return Err(Difference::Words { at, first, second });
    }
    if let Some((at, first, second)) = first_unequal(&first.slots, &second.slots) {
        return Err(Difference::Slots { at, first, second });
    }
    Ok(())
}

fn compare_outcomes(first: &Outcome, second: &Outcome) -> Result<(), Difference> {
    if first.answer != second.answer {
        return Err(Difference::Answer(first.answer, second.answer));
    }
    if first.value != second.value {
        return Err(Difference::Value(first.value.clone(), second.value.clone()));
    }
    if first.entries != second.entries {
        return Err(Difference::Entries(first.entries.clone(), second.entries.clone()));
    }
    if let Some((at, first, second)) = first_unequal(&first.area, &second.area) {
        return Err(Difference::Area { at, first, second });
    }
    match (&first.lent, &second.lent) {
        (Some(first), Some(second)) => compare_tables(first, second),
        _ => Ok(()),
    }
}

/// A manager and its tables.
struct Side<'m> {
    manager: &'m dyn Manager,
    tables: Tables,
}

impl Side<'_> {
    /// Makes a call. Lent areas hold junk before, so that it shows what was written.
    fn make(&mut self, call: &Call) -> Outcome {
        let mut outcome = Outcome::default();
        let (manager, tables) = (self.manager, &mut self.tables);
        outcome.answer = match call {
            Call::Request { client, mode, flags, name } => manager.request(tables, *client, *mode, *flags, name),
            Call::Convert { client, lock, mode, flags, value } => manager.convert(tables, *client, *lock, *mode, *flags, value),
            Call::Release { client, lock, flags, value } => manager.release(tables, *client, *lock, *flags, value),
            Call::Cancel { client, lock } => manager.cancel(tables, *client, *lock),
            Call::Purge { client } => manager.purge(tables, *client),
            Call::Break => manager.break_deadlock(tables),
            Call::Poll { client } => manager.poll(tables, *client),
            Call::Read { client, lock, room } => {
                outcome.value = vec![0xa5; *room];
                manager.read(tables, *client, *lock, &mut outcome.value)
            }
            Call::List { client, lock, room } => {
                outcome.entries = vec![[0xa5a5_a5a5; 5]; *room];
                manager.list(tables, *client, *lock, &mut outcome.entries)
            }
            Call::Image { room } => {
                outcome.area = vec![0xa5; *room];
                manager.image(tables, &mut outcome.area)
            }
            Call::Holder { image, name } => u64::from(manager.holder(&image.bytes(tables), name)),
            Call::Sound => u64::from(manager.sound(tables)),
            Call::Start { resources, locks, words, slots } => {
                let lent = outcome.lent.insert(Tables::junk(*words, *slots));
                manager.start(lent, *resources, *locks)
            }
            Call::Load { image, words, slots } => {
                let lent = outcome.lent.insert(Tables::junk(*words, *slots));
                manager.load(&image.bytes(tables), lent)
            }
            Call::Damaged { .. } => unreachable!("the board takes a damaging call apart"),
        };
        outcome
    }
}

/// Two managers that have been given the same calls, and what their answers come to. The sums are one for both, since answers and tables
/// have been found the same before a call is added to them.
pub struct Board<'m> {
    first: Side<'m>,
    second: Side<'m>,
    sums: Sums,
}

impl<'m> Board<'m> {
    pub fn new(first: &'m dyn Manager, second: &'m dyn Manager) -> Board<'m> {
        let side = |manager| Side { manager, tables: Tables { words: Vec::new(), slots: Vec::new() } };
        Board { first: side(first), second: side(second), sums: Sums::default() }
    }

    /// The tables, the same on both sides.
    pub fn tables(&self) -> &Tables {
        &self.first.tables
    }

    /// What the answers come to, the same on both sides.
    pub fn sums(&self) -> &Sums {
        &self.sums
    }

    /// Goes on from other tables, on both sides. The sums start there at what these hold.
    pub fn set(&mut self, tables: &Tables) {
        self.first.tables.clone_from(tables);
        self.second.tables.clone_from(tables);
        self.sums = Sums::resumed(tables);
    }

    /// Makes a call on both sides.
    pub fn play(&mut self, call: &Call) -> Result<Outcome, Difference> {
        if let Call::Damaged { changes, call, stays } = call {
            let (before, sums) = (self.tables().clone(), self.sums.clone());
            let mut damaged = before.clone();
            damage(&mut damaged, &changes.list);
            self.set(&damaged);
            let sound = self.agreed_soundness()?;
            let outcome = self.play(call)?;
            if !(sound && *stays) {
                self.set(&before);
                self.sums = sums;
            }
            return Ok(Outcome { sound: Some(sound), ..outcome });
        }
        let first = self.first.make(call);
        let second = self.second.make(call);
        compare_outcomes(&first, &second)?;
        compare_tables(&self.first.tables, &self.second.tables)?;
        self.take(call, &first);
        self.sums.play(call, first.answer, &self.first.tables).map_err(Difference::Sum)?;
        Ok(first)
    }

    /// Goes on with the tables lent to an accepted start or load.
    fn take(&mut self, call: &Call, outcome: &Outcome) {
        if let (Some(lent), None) = (&outcome.lent, refusal(outcome.answer)) {
            self.set(lent);
            if matches!(call, Call::Start { .. }) {
                self.sums = Sums::default();
            }
        }
    }

    fn agreed_soundness(&self) -> Result<bool, Difference> {
        let first = self.first.manager.sound(&self.first.tables);
        let second = self.second.manager.sound(&self.second.tables);
        if first == second { Ok(first == 1) } else { Err(Difference::Sound(first, second)) }
    }
}

/// Plays a list of calls from no tables at all: where the first difference shows, and what it is.
pub fn play_list(first: &dyn Manager, second: &dyn Manager, calls: &[Call]) -> Option<(usize, Difference)> {
    let mut board = Board::new(first, second);
    calls.iter().enumerate().find_map(|(at, call)| board.play(call).err().map(|difference| (at, difference)))
}

/// Drops things from a list that fails, as long as it still does. `fails` tells the place of the last thing that is needed for it. Larger
/// pieces are tried first, and it gives up after so many plays.
pub fn shrink<T: Clone>(list: &[T], plays: usize, fails: impl Fn(&[T]) -> Option<usize>) -> Vec<T> {
    let mut list = list.to_vec();
    let mut left = plays;
    let mut piece = list.len() / 2;
    while piece > 0 {
        let mut at = 0;
        while at < list.len() && left > 0 {
            left -= 1;
            let mut shorter = list.clone();
            shorter.drain(at..(at + piece).min(list.len()));
            match fails(&shorter) {
                Some(end) => {
                    shorter.truncate(end + 1);
                    list = shorter;
                }
                None => at += piece,
            }
        }
        piece /= 2;
    }
    list
}

/// The same for calls on two managers that differ.
pub fn shrink_calls(first: &dyn Manager, second: &dyn Manager, calls: &[Call], plays: usize) -> Vec<Call> {
    shrink(calls, plays, |calls| play_list(first, second, calls).map(|(end, _)| end))
}
