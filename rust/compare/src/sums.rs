//! How the answers of a list of calls add up: document 01's sum of locks, and document 02's sum of blocked calls, the second of all
//! clients and of each.
//!
//! What one manager alone does wrong, the comparison has found before. The sums find what it can't: a mistake that both managers make, as
//! may be, since both were written from the same papers. So they use neither. They add up the answers, and count in the words what stands
//! now.
//!
//! Both are of lists from fresh tables. Where a game goes on from other tables, loaded or changed without a call, they start at what the
//! words hold: the locks there were requested before, and the blocked and unread ones answered with 2.

use crate::call::Call;
use crate::manager::{Tables, purged_blocked, purged_unread, refusal, result};
use model::layout::{self, header, lock};
use std::collections::BTreeMap;
use std::fmt;

/// The first is the sum of the others.
const LOCKS: [&str; 6] = ["accepted requests", "locks in use", "releases", "requests cancelled", "locks purged", "polled denials"];

/// So is this first one.
const HEARD: [&str; 7] = [
    "answers 2 of request and convert",
    "locks now blocked",
    "completions unread",
    "polls with a completion",
    "accepted cancels",
    "locks purged while blocked",
    "locks purged with a completion unread",
];

/// All terms of a sum above 0 at once.
const ALL: [&str; 3] = ["every term of the sum of locks", "every term of the sum of blocked calls", "every term of one client's"];

/// The terms of [`LOCKS`].
#[derive(Clone, Copy, Debug, Default)]
struct Locks {
    requests: u64,
    in_use: u64,
    releases: u64,
    cancelled: u64,
    purged: u64,
    denials: u64,
}

impl Locks {
    fn terms(&self) -> [u64; LOCKS.len()] {
        [self.requests, self.in_use, self.releases, self.cancelled, self.purged, self.denials]
    }
}

/// The terms of [`HEARD`], of one client.
#[derive(Clone, Copy, Debug, Default)]
struct Heard {
    answers_2: u64,
    blocked: u64,
    unread: u64,
    polled: u64,
    cancels: u64,
    purged_blocked: u64,
    purged_unread: u64,
}

impl Heard {
    fn terms(&self) -> [u64; HEARD.len()] {
        [self.answers_2, self.blocked, self.unread, self.polled, self.cancels, self.purged_blocked, self.purged_unread]
    }
}

/// A term that was above 0 after a call of a list from fresh tables.
#[derive(Clone, Copy, Debug, PartialEq, Eq, PartialOrd, Ord)]
pub struct Term(&'static str);

impl Term {
    pub fn all() -> impl Iterator<Item = Term> {
        LOCKS.into_iter().chain(HEARD).chain(ALL).map(Term)
    }
}

impl fmt::Display for Term {
    fn fmt(&self, f: &mut fmt::Formatter) -> fmt::Result {
        write!(f, "in the sums of a list from fresh tables: {}", self.0)
    }
}

/// The sums of a list of calls so far. By default it is a list from fresh tables.
#[derive(Clone, Debug, Default)]
pub struct Sums {
    resumed: bool,
    locks: Locks,
    clients: BTreeMap<u32, Heard>,
}

impl Sums {
    /// Those of a list that goes on from some tables, which calls need not have led to.
    pub fn resumed(tables: &Tables) -> Sums {
        let mut sums = Sums { resumed: true, ..Sums::default() };
        sums.count(tables);
        sums.locks.requests = sums.locks.in_use;
        sums.clients.values_mut().for_each(|heard| heard.answers_2 = heard.blocked + heard.unread);
        sums
    }

    /// Goes on by a call, after which the tables are these. The error says what doesn't add up.
    pub fn play(&mut self, call: &Call, answer: u64, tables: &Tables) -> Result<(), String> {
        self.add(call, answer);
        self.count(tables);
        add_up(&LOCKS, &self.locks.terms())?;
        add_up(&HEARD, &self.heard())?;
        let each = |(client, heard): (&u32, &Heard)| add_up(&HEARD, &heard.terms()).map_err(|what| format!("client {client}: {what}"));
        self.clients.iter().try_for_each(each)
    }

    /// The terms above 0, if it is a list from fresh tables.
    pub fn terms(&self) -> Vec<Term> {
        if self.resumed {
            return Vec::new();
        }
        let (locks, heard) = (self.locks.terms(), self.heard());
        let some = LOCKS.into_iter().zip(locks).chain(HEARD.into_iter().zip(heard)).filter(|(_, term)| *term > 0).map(|(label, _)| label);
        let every = |terms: &[u64]| terms.iter().all(|term| *term > 0);
        let all = [every(&locks), every(&heard), self.clients.values().any(|heard| every(&heard.terms()))];
        some.chain(ALL.into_iter().zip(all).filter(|(_, so)| *so).map(|(label, _)| label)).map(Term).collect()
    }

    /// The terms of [`HEARD`], of all clients.
    fn heard(&self) -> [u64; HEARD.len()] {
        let add = |sum: [u64; HEARD.len()], heard: &Heard| std::array::from_fn(|at| sum[at] + heard.terms()[at]);
        self.clients.values().fold([0; HEARD.len()], add)
    }

    fn client(&mut self, client: u32) -> &mut Heard {
        self.clients.entry(client).or_default()
    }

    /// Adds what an answer comes to. A refused call comes to nothing.
    fn add(&mut self, call: &Call, answer: u64) {
        if refusal(answer).is_some() {
            return;
        }
        let is = |number: u32| u64::from(result(answer) == number);
        match call {
            Call::Request { client, .. } => {
                self.locks.requests += 1;
                self.client(*client).answers_2 += is(2);
            }
            Call::Convert { client, .. } => self.client(*client).answers_2 += is(2),
            Call::Release { .. } => self.locks.releases += 1,
            Call::Cancel { client, .. } => {
                self.locks.cancelled += is(2);
                self.client(*client).cancels += 1;
            }
            Call::Purge { client } => {
                self.locks.purged += u64::from(result(answer));
                let heard = self.client(*client);
                heard.purged_blocked += u64::from(purged_blocked(answer));
                heard.purged_unread += u64::from(purged_unread(answer));
            }
            Call::Poll { client } => {
                self.locks.denials += is(2);
                self.client(*client).polled += 1 - is(0);
            }
            _ => {}
        }
    }

    /// Counts the locks of some tables by their words: those in use, blocked (converting or waiting) and with a completion.
    fn count(&mut self, tables: &Tables) {
        self.locks.in_use = 0;
        self.clients.values_mut().for_each(|heard| (heard.blocked, heard.unread) = (0, 0));
        for record in records(tables).filter(|record| record[lock::STATE] != 0) {
            self.locks.in_use += 1;
            let heard = self.client(record[lock::CLIENT]);
            heard.blocked += u64::from(matches!(record[lock::STATE], 2 | 3));
            heard.unread += u64::from(record[lock::COMPLETION] != 0);
        }
    }
}

/// The records of all locks, as far as the words go: damaged tables may have other lengths.
fn records(tables: &Tables) -> impl Iterator<Item = &[u32; lock::WIDTH]> {
    let resources = tables.words.get(header::RESOURCES).copied().unwrap_or_default();
    let words = tables.words.get(layout::words(resources, 0)..).unwrap_or_default();
    words.as_chunks().0.iter()
}

/// Whether the first term is the sum of the others; else how they are.
fn add_up(labels: &[&str], terms: &[u64]) -> Result<(), String> {
    if terms[0] == terms[1..].iter().sum() {
        return Ok(());
    }
    let shown: Vec<String> = labels.iter().zip(terms).map(|(label, term)| format!("{label} {term}")).collect();
    Err(format!("{}, but {}", shown[0], shown[1..].join(" + ")))
}

#[cfg(test)]
mod tests {
    use super::*;
    use crate::call::{Change, Changes};
    use crate::manager::{Flat, accepted};
    use crate::play::Board;
    use crate::states::varied;

    fn varied_tables() -> Tables {
        let (words, slots) = varied().to_tables();
        Tables { words, slots }
    }

    fn request(client: u32) -> Call {
        Call::Request { client, mode: 5, flags: 0, name: b"a name".to_vec() }
    }

    /// A board after some calls that add up.
    fn board(calls: &[Call]) -> Board<'static> {
        let mut board = Board::new(&Flat, &Flat);
        for call in calls {
            board.play(call).unwrap_or_else(|difference| panic!("{call}: {difference}"));
        }
        board
    }

    #[test]
    fn fresh_tables_hold_nothing() {
        let what = Sums::default().play(&Call::start(8, 32), 0, &varied_tables());
        let in_use = varied().locks.len();
        assert!(what.is_err_and(|what| what.starts_with(&format!("accepted requests 0, but locks in use {in_use} + "))));
    }

    #[test]
    fn other_tables_start_at_what_they_hold() {
        let mut board = Board::new(&Flat, &Flat);
        board.set(&varied_tables());
        for client in 1..=4 {
            board.play(&Call::Poll { client }).expect("adds up");
            board.play(&Call::Purge { client }).expect("adds up");
        }
        let in_use = varied().locks.len() as u64;
        assert_eq!(board.sums().locks.terms(), [in_use, 0, 0, 0, in_use - board.sums().locks.denials, board.sums().locks.denials]);
        assert_eq!(board.sums().terms(), [], "it isn't a list from fresh tables");
    }

    #[test]
    fn changes_that_are_undone_are_not_of_the_list() {
        let wrong = Change::Word(header::ZERO, 1);
        let lengths = Change::WordsLength(3);
        let damaged = |change| Call::Damaged {
            changes: Changes { label: "", list: vec![change] },
            call: Box::new(Call::Purge { client: 1 }),
            stays: true,
        };
        let board = board(&[Call::start(2, 4), request(1), request(2), damaged(wrong), damaged(lengths), Call::Purge { client: 2 }]);
        assert_eq!(board.sums().heard(), [1, 0, 0, 0, 0, 1, 0]);
        assert_eq!(board.sums().terms().len(), 5, "{:?}", board.sums().terms());
    }

    /// The sums take the answers at their word.
    #[test]
    fn each_client_has_a_sum_of_its_own() {
        let tables = board(&[Call::start(2, 4), request(1), request(2)]).tables().clone();
        let mut sums = Sums::default();
        sums.add(&request(1), accepted(1, 1, 0));
        let what = sums.clone().play(&request(2), accepted(1, 2, 0), &tables);
        assert!(what.is_err_and(|what| what.starts_with("answers 2 of request and convert 0, but locks now blocked 1 + ")));
        let what = sums.clone().play(&request(3), accepted(2, 2, 0), &tables);
        assert!(what.is_err_and(|what| what.starts_with("client 2: answers 2 of request and convert 0, but locks now blocked 1 + ")));
        assert_eq!(sums.play(&request(2), accepted(2, 2, 0), &tables), Ok(()));
    }
}
