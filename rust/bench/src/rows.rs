//! What is timed: calls of each entry with a given outcome, found on the tables by trying.

use crate::call::{self, Areas, Call, Flat, Manager, Tables, refused, result};
use crate::fill::{CONVERTERS, accepted, name};
use flat::layout::state::{CONVERTING, GRANTED, WAITING};
use flat::layout::{LockRecord, Records, completion, head, lock, resource};

/// A small random number generator (splitmix64), so that every run times the same calls.
pub struct Rng(pub u64);

impl Rng {
    fn below(&mut self, bound: usize) -> usize {
        self.0 = self.0.wrapping_add(0x9e37_79b9_7f4a_7c15);
        let mixed = (self.0 ^ (self.0 >> 30)).wrapping_mul(0xbf58_476d_1ce4_e5b9);
        let mixed = (mixed ^ (mixed >> 27)).wrapping_mul(0x94d0_49bb_1331_11eb);
        ((u128::from(mixed ^ (mixed >> 31)) * bound as u128) >> 64) as usize
    }
}

/// A kind of call.
pub struct Row {
    pub title: &'static str,
    /// Calls that make such a call possible where the tables have none.
    prepare: &'static [Step],
    /// A call to try.
    propose: fn(&mut Rng, &Tables) -> Option<Call>,
    /// Whether it did what is to be timed: the tables before, the answer, the tables after.
    fits: fn(&Tables, u64, &Tables) -> bool,
}

/// A step of preparation, on names of its own.
#[derive(Clone, Copy)]
enum Step {
    Request(u32, u32, u32),
    Purge(u32),
    PurgeConverters,
}

/// Names that no filling uses.
const OWN: u32 = 90_000_000;

const NL: u32 = 0;
const PR: u32 = 3;
const PW: u32 = 4;
const EX: u32 = 5;

fn always(_: &Tables, _: u64, _: &Tables) -> bool {
    true
}

fn something(_: &Tables, answer: u64, _: &Tables) -> bool {
    answer != 0
}

fn no_notice(before: &Tables, _: u64, after: &Tables) -> bool {
    notices(after) == notices(before)
}

fn new_notice(before: &Tables, _: u64, after: &Tables) -> bool {
    notices(after) > notices(before)
}

/// How many locks have a completion.
fn notices(tables: &Tables) -> usize {
    records(tables).locks.iter().filter(|record| record[lock::COMPLETION] != completion::NONE).count()
}

/// Whether a request waits and has marked all locks on its resource that hold a mode other than NL.
fn marks_all(before: &Tables, answer: u64, after: &Tables) -> bool {
    let queued = &records(after).locks[call::lock(answer) as usize - 1];
    let holds = |record: &&LockRecord| record[lock::RESOURCE] == queued[lock::RESOURCE] && record[lock::HELD] != NL;
    let holders = records(before).locks.iter().filter(holds).count();
    result(answer) == 2 && holders > 0 && marked(after) == marked(before) + holders
}

/// How many locks have a mark.
fn marked(tables: &Tables) -> usize {
    records(tables).locks.iter().filter(|record| record[lock::MARK] != 0).count()
}

fn records(tables: &Tables) -> Records<'_> {
    Records::cut(&tables.words, &tables.slots).expect("tables that were started")
}

/// A random lock in one of some states, without a completion: its client and number.
fn some_lock(rng: &mut Rng, tables: &Tables, states: &[u32]) -> Option<(u32, u32)> {
    let numbered = (1..).zip(records(tables).locks);
    let fits = |record: &LockRecord| states.contains(&record[lock::STATE]) && record[lock::COMPLETION] == completion::NONE;
    let fitting: Vec<(u32, u32)> =
        numbered.filter(|(_, record)| fits(record)).map(|(number, record)| (record[lock::CLIENT], number)).collect();
    fitting.get(rng.below(fitting.len().max(1))).copied()
}

/// A random name in use.
fn some_name(rng: &mut Rng, tables: &Tables) -> Option<Vec<u8>> {
    let records = records(tables);
    let slots = records.resources.iter().map(|record| record[resource::NAME_LENGTH] as usize).zip(records.slots);
    let used: Vec<&[u8]> = slots.filter(|(length, _)| *length != 0).map(|(length, slot)| &slot[..length]).collect();
    used.get(rng.below(used.len().max(1))).map(|name| name.to_vec())
}

fn request_known(rng: &mut Rng, tables: &Tables) -> Option<Call> {
    Some(Call::Request { client: 250, mode: rng.below(6) as u32, name: some_name(rng, tables)? })
}

/// PR on the name with the longest wait chain of those where that alone holds it up: no lock converts, and all hold NL or PR.
fn request_behind(_: &mut Rng, tables: &Tables) -> Option<Call> {
    let records = records(tables);
    let mut waiting = vec![0; records.resources.len() + 1];
    for record in records.locks.iter().filter(|record| record[lock::STATE] == WAITING) {
        waiting[record[lock::RESOURCE] as usize] += 1;
    }
    for record in records.locks.iter().filter(|record| record[lock::STATE] == CONVERTING || ![NL, PR].contains(&record[lock::HELD])) {
        waiting[record[lock::RESOURCE] as usize] = 0;
    }
    let (number, _) = waiting.iter().enumerate().filter(|(_, waiting)| **waiting > 0).max_by_key(|(_, waiting)| **waiting)?;
    let length = records.resources[number - 1][resource::NAME_LENGTH] as usize;
    Some(Call::Request { client: 250, mode: PR, name: records.slots[number - 1][..length].to_vec() })
}

fn convert(rng: &mut Rng, tables: &Tables) -> Option<Call> {
    let (client, lock) = some_lock(rng, tables, &[GRANTED])?;
    Some(Call::Convert { client, lock, mode: rng.below(6) as u32 })
}

fn release(rng: &mut Rng, tables: &Tables) -> Option<Call> {
    some_lock(rng, tables, &[GRANTED]).map(|(client, lock)| Call::Release { client, lock })
}

fn request_new(rng: &mut Rng, _: &Tables) -> Option<Call> {
    Some(Call::Request { client: 250, mode: EX, name: name(OWN + 5 + rng.below(9) as u32) })
}

fn cancel(rng: &mut Rng, tables: &Tables) -> Option<Call> {
    some_lock(rng, tables, &[CONVERTING, WAITING]).map(|(client, lock)| Call::Cancel { client, lock })
}

/// Any of the calls of daily life.
fn mixed(rng: &mut Rng, tables: &Tables) -> Option<Call> {
    match rng.below(20) {
        0..=5 => request_known(rng, tables),
        6..=7 => request_new(rng, tables),
        8..=12 => convert(rng, tables),
        13..=16 => release(rng, tables),
        17 => cancel(rng, tables),
        18 => Some(Call::Poll { client: 101 + rng.below(140) as u32 }),
        _ => some_lock(rng, tables, &[GRANTED]).map(|(client, lock)| Call::Read { client, lock }),
    }
}

/// The rows, in the order of document 01.
pub const ROWS: &[Row] = &[
    Row {
        title: "start",
        prepare: &[],
        propose: |_, tables| Some(Call::Start { resources: tables.words[head::RESOURCES], locks: tables.words[head::LOCKS] }),
        fits: always,
    },
    Row { title: "request, new name", prepare: &[], propose: request_new, fits: always },
    Row {
        title: "request, granted",
        prepare: &[Step::Request(251, PR, 0)],
        propose: request_known,
        fits: |_, answer, _| result(answer) == 1,
    },
    Row {
        title: "request, waits",
        prepare: &[Step::Request(251, EX, 0)],
        propose: request_known,
        fits: |_, answer, _| result(answer) == 2,
    },
    Row {
        title: "request, behind a wait chain",
        prepare: &[Step::PurgeConverters, Step::Request(251, PR, 0), Step::Request(252, EX, 0)],
        propose: request_behind,
        fits: |before, answer, after| result(answer) == 2 && marked(after) == marked(before),
    },
    Row { title: "request, marks all", prepare: &[Step::Request(251, EX, 0)], propose: request_known, fits: marks_all },
    Row {
        title: "convert, in place",
        prepare: &[Step::Request(251, PR, 0)],
        propose: convert,
        fits: |before, answer, after| answer == 1 && before != after,
    },
    Row {
        title: "convert, queued",
        prepare: &[Step::Request(251, PR, 0), Step::Request(252, PR, 0)],
        propose: convert,
        fits: |_, answer, _| answer == 2,
    },
    Row { title: "release", prepare: &[Step::Request(251, PR, 0)], propose: release, fits: no_notice },
    Row {
        title: "release, sweep grants",
        prepare: &[Step::Request(251, EX, 0), Step::Request(252, PR, 0)],
        propose: release,
        fits: new_notice,
    },
    Row { title: "cancel", prepare: &[Step::Request(251, EX, 0), Step::Request(252, PR, 0)], propose: cancel, fits: always },
    Row {
        title: "purge",
        prepare: &[Step::Request(251, EX, 0), Step::Request(252, PR, 0)],
        propose: |rng, tables| some_lock(rng, tables, &[GRANTED, CONVERTING, WAITING]).map(|(client, _)| Call::Purge { client }),
        fits: something,
    },
    Row {
        title: "break, no deadlock",
        prepare: &[Step::Request(251, EX, 0), Step::Request(252, PW, 0)],
        propose: |_, tables| (tables.words[head::BLOCKED] != 0).then_some(Call::Break),
        fits: |_, answer, _| answer == 0,
    },
    Row {
        title: "break, last blocked",
        prepare: &[Step::Request(251, EX, 0), Step::Request(251, EX, 0)],
        propose: |_, _| Some(Call::Break),
        fits: something,
    },
    Row {
        title: "poll, a notice",
        prepare: &[Step::Request(251, EX, 0), Step::Request(252, PR, 0), Step::Purge(251)],
        propose: |_, _| Some(Call::Poll { client: 252 }),
        fits: something,
    },
    Row {
        title: "poll, a mark",
        prepare: &[Step::Request(251, EX, 0), Step::Request(252, PR, 0)],
        propose: |_, _| Some(Call::Poll { client: 251 }),
        fits: something,
    },
    Row { title: "poll, none", prepare: &[], propose: |_, _| Some(Call::Poll { client: 253 }), fits: always },
    Row {
        title: "read",
        prepare: &[Step::Request(251, NL, 0)],
        propose: |rng, tables| some_lock(rng, tables, &[GRANTED]).map(|(client, lock)| Call::Read { client, lock }),
        fits: always,
    },
    Row {
        title: "list",
        prepare: &[Step::Request(251, NL, 0)],
        propose: |rng, tables| some_lock(rng, tables, &[GRANTED]).map(|(client, lock)| Call::List { client, lock }),
        fits: always,
    },
    Row { title: "image", prepare: &[], propose: |_, _| Some(Call::Image), fits: always },
    Row { title: "load", prepare: &[], propose: |_, tables| Some(Call::Load { image: tables.bytes() }), fits: always },
    Row {
        title: "holder",
        prepare: &[Step::Request(251, EX, 0)],
        propose: |rng, tables| Some(Call::Holder { image: tables.bytes(), name: some_name(rng, tables)? }),
        fits: |_, answer, _| answer != 0 && answer < 256,
    },
    Row { title: MIXED, prepare: &[], propose: mixed, fits: always },
    Row { title: SOUND, prepare: &[], propose: |_, _| Some(Call::Sound), fits: something },
];

/// The row of the soundness check alone.
pub const SOUND: &str = "sound";

/// The row of a list of calls one after the other on the same tables.
pub const MIXED: &str = "a mixed list, each call";

/// How many calls a mixed list has.
const MIXED_CALLS: usize = 64;

impl Row {
    /// Whether its calls are made one after the other on the same tables, and not each on its own copy.
    pub fn is_list(&self) -> bool {
        self.title == MIXED
    }

    /// The tables to make calls of this kind on, and so many calls; a list has its own number.
    pub fn calls(&self, filled: &Tables, count: usize) -> (Tables, Vec<Call>) {
        if self.is_list() {
            return (filled.clone(), self.list(filled));
        }
        let found = self.find(filled, count);
        if !found.is_empty() {
            return (filled.clone(), found);
        }
        let mut prepared = filled.clone();
        for step in self.prepare {
            let calls = match *step {
                Step::Request(client, mode, at) => vec![Call::Request { client, mode, name: name(OWN + at) }],
                Step::Purge(client) => vec![Call::Purge { client }],
                Step::PurgeConverters => CONVERTERS.map(|client| Call::Purge { client }).collect(),
            };
            for call in calls {
                accepted(&mut prepared, &call);
            }
        }
        let found = self.find(&prepared, count);
        assert!(!found.is_empty(), "no call for `{}`", self.title);
        (prepared, found)
    }

    /// Calls of this kind on some tables, repeated if there are fewer; none if there is none.
    fn find(&self, tables: &Tables, count: usize) -> Vec<Call> {
        let mut rng = Rng(count as u64);
        let tries = (0..4000).filter_map(|_| (self.propose)(&mut rng, tables));
        let found: Vec<Call> = tries.filter(|call| self.does(tables, call)).take(count).collect();
        found.iter().cycle().take(if found.is_empty() { 0 } else { count }).cloned().collect()
    }

    /// Calls one after the other, accepted or not.
    fn list(&self, tables: &Tables) -> Vec<Call> {
        let mut rng = Rng(1);
        let mut now = tables.clone();
        let mut calls = Vec::new();
        while calls.len() < MIXED_CALLS {
            if let Some(call) = (self.propose)(&mut rng, &now) {
                let mut areas = Areas::new(&now);
                Flat::make(&call, &mut now, &mut areas);
                calls.push(call);
            }
        }
        calls
    }

    fn does(&self, tables: &Tables, call: &Call) -> bool {
        let mut after = tables.clone();
        let answer = Flat::make(call, &mut after, &mut Areas::new(tables));
        !refused(answer) && (self.fits)(tables, answer, &after)
    }
}
