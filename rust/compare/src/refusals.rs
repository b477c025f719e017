//! Refusals more closely than by their numbers: why one fits a call, and which others fit it as well. The first that fits is to be answered,
//! so those that can fit at once have to be met at once.

use crate::call::{Call, Entry, Image};
use crate::manager::Tables;
use crate::sizes;
use model::layout::{self, MOST_CLIENT, MOST_LOCKS, MOST_RESOURCES, NAME_BYTES, VALUE_BYTES, WORD_BYTES, header};
use model::{Lock, Mode, Standing, State};
use std::fmt;

/// A refusal that fits a call, and why it does.
#[derive(Clone, Copy, Debug, PartialEq, Eq)]
pub struct Fit {
    pub number: u32,
    pub why: &'static str,
}

/// A refusal of an entry, and why it is given.
#[derive(Clone, Copy, Debug, PartialEq, Eq, PartialOrd, Ord)]
pub struct Given(pub Entry, pub u32, pub &'static str);

/// A refusal of an entry that is given where a later one fits as well.
#[derive(Clone, Copy, Debug, PartialEq, Eq, PartialOrd, Ord)]
pub struct Before(pub Entry, pub u32, pub u32);

impl fmt::Display for Given {
    fn fmt(&self, f: &mut fmt::Formatter) -> fmt::Result {
        write!(f, "{} refused with {}: {}", self.0, self.1, self.2)
    }
}

impl fmt::Display for Before {
    fn fmt(&self, f: &mut fmt::Formatter) -> fmt::Result {
        write!(f, "{} refused with {} where {} fits as well", self.0, self.1, self.2)
    }
}

const TABLES: &[&str] = &["the tables aren't sound"];
const IMAGE: &[&str] = &["its tables aren't sound", "its length isn't that of its tables"];
const SIZES: &[&str] =
    &["R 0", "R above 256", "L 0", "L above 1,024", "too few words", "too many words", "too few bytes", "too many bytes"];
const CLIENT: &[&str] = &["client 0", "client 256", "a client above 256"];
const MODE: &[&str] = &["mode 6", "a mode above 6"];
const FLAGS_TOGETHER: &str = "1 and 2 together";
const FLAGS_ABOVE: &str = "a flag above 4";
const NAME: &[&str] = &["0 bytes", "65 bytes", "more than 65 bytes"];
const VALUE: &[&str] = &["no value", "a shorter value", "a longer value"];
const LOCK: &[&str] = &["lock 0", "a lock above L", "a free lock", "another client's lock"];
const UNREAD: &[&str] = &["completion 1", "completion 2", "completion 3"];
const NO_RESOURCE: &[&str] = &["without flag 4", "with flag 4"];
const NO_LOCK: &[&str] = &["on a known name", "on a new name"];
const REQUEST_BLOCKS: &[&str] =
    &["for a held mode alone", "behind a conversion alone", "behind the wait chain alone", "for more than one of these reasons"];
const CONVERSION_BLOCKS: &[&str] = &["for a held mode", "behind a conversion"];
const AREA: &[&str] = &["a shorter area", "a longer area"];
const LENGTHS: &[&str] = &["too few words", "too many words", "other slots"];

impl Entry {
    /// The refusals that it can give, in the order in which they are looked for, and why it can give each.
    pub fn refusals(self) -> &'static [(u32, &'static [&'static str])] {
        match self {
            Entry::Start => &[(2, SIZES)],
            Entry::Request => &[
                (1, TABLES),
                (3, CLIENT),
                (4, MODE),
                (5, &["flag 1", "flag 2", FLAGS_TOGETHER, FLAGS_ABOVE]),
                (6, NAME),
                (11, NO_RESOURCE),
                (12, NO_LOCK),
                (13, REQUEST_BLOCKS),
            ],
            Entry::Convert => &[
                (1, TABLES),
                (3, CLIENT),
                (4, MODE),
                (5, &[FLAGS_TOGETHER, FLAGS_ABOVE]),
                (7, VALUE),
                (8, LOCK),
                (9, UNREAD),
                (10, &["a converting lock", "a waiting lock"]),
                (13, CONVERSION_BLOCKS),
            ],
            Entry::Release => &[
                (1, TABLES),
                (3, CLIENT),
                (5, &["flag 4", FLAGS_TOGETHER, FLAGS_ABOVE]),
                (7, VALUE),
                (8, LOCK),
                (9, UNREAD),
                (10, &["a converting lock", "a waiting lock"]),
            ],
            Entry::Cancel => &[(1, TABLES), (3, CLIENT), (8, LOCK), (9, UNREAD), (10, &["a granted lock"])],
            Entry::Purge | Entry::Poll => &[(1, TABLES), (3, CLIENT)],
            Entry::Break => &[(1, TABLES)],
            Entry::Read | Entry::List => &[(1, TABLES), (3, CLIENT), (8, LOCK), (10, &["a waiting lock", "a denied lock"])],
            Entry::Image => &[(1, TABLES), (14, AREA)],
            Entry::Load => &[(1, IMAGE), (14, LENGTHS)],
            Entry::Holder => &[(1, IMAGE), (6, NAME)],
            Entry::Sound => &[],
        }
    }

    /// The refusals that can fit together: one, and those after it. A lock's completion, its state and what it would wait for are only
    /// spoken of where the lock is the client's own.
    fn together(self) -> &'static [(u32, &'static [u32])] {
        match self {
            Entry::Request => &[
                (1, &[3, 4, 5, 6]),
                (3, &[4, 5, 6, 11, 12, 13]),
                (4, &[5, 6, 11, 12]),
                (5, &[6, 11, 12, 13]),
                (6, &[11, 12]),
                (11, &[12]),
                (12, &[13]),
            ],
            Entry::Convert => &[
                (1, &[3, 4, 5, 7]),
                (3, &[4, 5, 7, 8]),
                (4, &[5, 7, 8, 9, 10]),
                (5, &[7, 8, 9, 10, 13]),
                (7, &[8, 9, 10, 13]),
                (9, &[10, 13]),
            ],
            Entry::Release => &[(1, &[3, 5, 7]), (3, &[5, 7, 8]), (5, &[7, 8, 9, 10]), (7, &[8, 9, 10]), (9, &[10])],
            Entry::Cancel => &[(1, &[3]), (3, &[8]), (9, &[10])],
            Entry::Purge | Entry::Poll => &[(1, &[3])],
            Entry::Read | Entry::List => &[(1, &[3]), (3, &[8])],
            Entry::Image | Entry::Load => &[(1, &[14])],
            Entry::Holder => &[(1, &[6])],
            Entry::Start | Entry::Break | Entry::Sound => &[],
        }
    }
}

/// All refusals that some entries can give.
pub fn given(entries: &[Entry]) -> impl Iterator<Item = Given> {
    let of = |entry: Entry| entry.refusals().iter().flat_map(move |(number, whys)| whys.iter().map(move |why| Given(entry, *number, why)));
    entries.iter().copied().flat_map(of)
}

/// All refusals of some entries that can fit together.
pub fn together(entries: &[Entry]) -> impl Iterator<Item = Before> {
    let of =
        |entry: Entry| entry.together().iter().flat_map(move |(first, later)| later.iter().map(move |other| Before(entry, *first, *other)));
    entries.iter().copied().flat_map(of)
}

/// The refusals that fit a call on tables that have a state, or have none because they aren't sound: in their order.
pub fn fitting(call: &Call, tables: &Tables, state: Option<&State>) -> Vec<Fit> {
    let unsound = fit(1, TABLES[0], state.is_none());
    let fits = match call {
        Call::Start { resources, locks, words, slots } => vec![sizes(*resources, *locks, *words, *slots)],
        Call::Request { client, mode: asked, flags: set, name: named } => {
            let arguments = [client_number(*client), mode(*asked), flags(*set, 4), name(named)];
            let full = state.map(|state| no_records(state, *asked, *set, named)).unwrap_or_default();
            [vec![unsound], arguments.to_vec(), full].concat()
        }
        Call::Convert { client, lock, mode: asked, flags: set, value: lent } => {
            let arguments = [client_number(*client), mode(*asked), flags(*set, 7), value(*set, lent)];
            let standing = state.map(|state| own_lock(state, *client, *lock, is_granted)).unwrap_or_default();
            let waits = state.and_then(|state| conversion_blocks(state, *client, *lock, *asked, *set));
            [vec![unsound], arguments.to_vec(), standing, vec![waits]].concat()
        }
        Call::Release { client, lock, flags: set, value: lent } => {
            let arguments = [client_number(*client), flags(*set, 3), value(*set, lent)];
            let standing = state.map(|state| own_lock(state, *client, *lock, is_granted)).unwrap_or_default();
            [vec![unsound], arguments.to_vec(), standing].concat()
        }
        Call::Cancel { client, lock } => {
            let standing = state.map(|state| own_lock(state, *client, *lock, Lock::blocked)).unwrap_or_default();
            [vec![unsound, client_number(*client)], standing].concat()
        }
        Call::Purge { client } | Call::Poll { client } => vec![unsound, client_number(*client)],
        Call::Break => vec![unsound],
        Call::Read { client, lock, .. } | Call::List { client, lock, .. } => {
            let standing = state.map(|state| own_lock(state, *client, *lock, |lock| lock.held().is_some())).unwrap_or_default();
            let but_unread = standing.into_iter().filter(|fit| fit.is_none_or(|fit| fit.number != 9)).collect();
            [vec![unsound, client_number(*client)], but_unread].concat()
        }
        Call::Image { room } => vec![unsound, area(*room, layout::image(tables.words.len(), tables.slots.len()))],
        Call::Load { image, words, slots } => {
            let bytes = image.bytes(tables);
            vec![unsound_image(&bytes), sizes_in(&bytes).and_then(|(right, of_slots)| lengths((*words, *slots), (right, of_slots)))]
        }
        Call::Holder { image, name: named } => vec![unsound_image(&image.bytes(tables)), name(named)],
        Call::Sound | Call::Damaged { .. } => Vec::new(),
    };
    fits.into_iter().flatten().collect()
}

fn fit(number: u32, why: &'static str, so: bool) -> Option<Fit> {
    so.then_some(Fit { number, why })
}

/// The first why that is so.
fn first(number: u32, whys: &[&'static str], so: &[bool]) -> Option<Fit> {
    whys.iter().zip(so).find(|(_, so)| **so).map(|(why, _)| Fit { number, why })
}

fn sizes(resources: u32, locks: u32, words: usize, slots: usize) -> Option<Fit> {
    let (right_words, right_slots) = sizes::lengths(resources, locks);
    let wrong = [resources == 0, resources > MOST_RESOURCES, locks == 0, locks > MOST_LOCKS];
    let lengths = [words < right_words, words > right_words, slots < right_slots, slots > right_slots];
    first(2, SIZES, &[wrong, lengths].concat())
}

fn client_number(client: u32) -> Option<Fit> {
    first(3, CLIENT, &[client == 0, client == MOST_CLIENT + 1, client > MOST_CLIENT])
}

fn mode(mode: u32) -> Option<Fit> {
    first(4, MODE, &[mode == 6, mode > 6])
}

fn flags(flags: u32, allowed: u32) -> Option<Fit> {
    let wrong = |flag: u32| flags & flag != 0 && allowed & flag == 0;
    let whys = [FLAGS_ABOVE, FLAGS_TOGETHER, "flag 1", "flag 2", "flag 4"];
    first(5, &whys, &[flags > 7, flags & 3 == 3, wrong(1), wrong(2), wrong(4)])
}

fn name(name: &[u8]) -> Option<Fit> {
    first(6, NAME, &[name.is_empty(), name.len() == NAME_BYTES + 1, name.len() > NAME_BYTES])
}

fn value(flags: u32, value: &[u8]) -> Option<Fit> {
    let stores = flags & 1 != 0;
    first(7, VALUE, &[stores && value.is_empty(), stores && value.len() < VALUE_BYTES, stores && value.len() > VALUE_BYTES])
}

/// What is wrong with the lock of a call: 8, or else 9 and 10.
fn own_lock(state: &State, client: u32, number: u32, fits: fn(&Lock) -> bool) -> Vec<Option<Fit>> {
    let Some(lock) = own(state, client, number) else {
        let whys = [number == 0, number > state.most_locks, !state.locks.contains_key(&number), true];
        return vec![first(8, LOCK, &whys)];
    };
    let unread = lock.completion();
    let states = ["a granted lock", "a converting lock", "a waiting lock", "a denied lock"];
    let state_fits = (1..=4).map(|number| lock.state_number() == number && !fits(lock)).collect::<Vec<_>>();
    vec![first(9, UNREAD, &[unread == 1, unread == 2, unread == 3]), first(10, &states, &state_fits)]
}

fn own(state: &State, client: u32, number: u32) -> Option<&Lock> {
    state.locks.get(&number).filter(|lock| u32::from(lock.client) == client)
}

fn is_granted(lock: &Lock) -> bool {
    matches!(lock.standing, Standing::Granted { .. })
}

/// 11, 12 and 13 of a request.
fn no_records(state: &State, mode: u32, flags: u32, name: &[u8]) -> Vec<Option<Fit>> {
    let known = state.named(name);
    let new = known.is_none();
    let no_resource = new && state.free_resources.is_empty();
    let no_lock = state.free_locks.is_empty();
    let dont_queue = flags & 4 != 0;
    let blocks = known.zip(Mode::from_number(mode)).and_then(|(resource, mode)| request_blocks(state, resource, mode));
    vec![
        first(11, NO_RESOURCE, &[no_resource && !dont_queue, no_resource]),
        first(12, NO_LOCK, &[no_lock && !new, no_lock]),
        blocks.filter(|_| dont_queue),
    ]
}

/// 13, where a request of a mode would wait on a resource, with flag 4 or without it.
fn request_blocks(state: &State, resource: u32, mode: Mode) -> Option<Fit> {
    let queues = &state.resources[&resource];
    let reasons = [!state.fits(resource, mode, 0), !queues.converting.is_empty(), mode != Mode::Nl && !queues.waiting.is_empty()];
    let several = reasons.iter().filter(|so| **so).count() > 1;
    first(13, REQUEST_BLOCKS, &[reasons.map(|so| so && !several).to_vec(), vec![several]].concat())
}

/// 13, where a conversion has flag 4 and would wait. Its own held mode isn't in its way.
fn conversion_blocks(state: &State, client: u32, number: u32, mode: u32, flags: u32) -> Option<Fit> {
    let lock = own(state, client, number).filter(|lock| is_granted(lock) && flags & 4 != 0)?;
    let mode = Mode::from_number(mode).filter(|mode| !lock.held().is_some_and(|held| held.down_to(*mode)))?;
    let resource = lock.resource()?;
    first(13, CONVERSION_BLOCKS, &[!state.fits(resource, mode, number), !state.resources[&resource].converting.is_empty()])
}

fn area(room: usize, right: usize) -> Option<Fit> {
    first(14, AREA, &[room < right, room > right])
}

fn lengths((words, slots): (usize, usize), (right_words, right_slots): (usize, usize)) -> Option<Fit> {
    first(14, LENGTHS, &[words < right_words, words > right_words, slots != right_slots])
}

/// The counts of words and slot bytes that an image's own R and L give, if these are in range.
pub fn sizes_in(image: &[u8]) -> Option<(usize, usize)> {
    let (words, _) = image.as_chunks::<WORD_BYTES>();
    let word = |at: usize| words.get(at).map(|bytes| u32::from_le_bytes(*bytes));
    let (resources, locks) = (word(header::RESOURCES)?, word(header::LOCKS)?);
    layout::sizes_allowed(resources, locks).then(|| sizes::lengths(resources, locks))
}

/// 1, where an image isn't that of sound tables, whatever name is asked for.
fn unsound_image(image: &[u8]) -> Option<Fit> {
    let unsound = model::entries::holder(image, b"a name") == Err(model::Refused::UNSOUND);
    let right_length = sizes_in(image).is_some_and(|(words, slots)| image.len() == layout::image(words, slots));
    first(1, IMAGE, &[unsound && right_length, unsound])
}

/// Images that a call lends.
pub fn image_of(call: &Call) -> Option<&Image> {
    match call {
        Call::Load { image, .. } | Call::Holder { image, .. } => Some(image),
        _ => None,
    }
}
