//! A call as a value, and the two managers that it can be made on.

use zamgyorud::layout::{self, MOST_LOCKS, VALUE_BYTES};

/// Lent tables.
#[derive(Clone, PartialEq, Eq)]
pub struct Tables {
    pub words: Vec<u32>,
    pub slots: Vec<u8>,
}

impl Tables {
    /// Takes over the contents of tables of the same sizes.
    pub fn copy_from(&mut self, other: &Tables) {
        self.words.copy_from_slice(&other.words);
        self.slots.copy_from_slice(&other.slots);
    }

    /// The bytes of their image.
    pub fn bytes(&self) -> Vec<u8> {
        self.words.iter().flat_map(|word| word.to_le_bytes()).chain(self.slots.iter().copied()).collect()
    }
}

/// Something to time.
#[derive(Clone)]
pub enum Call {
    Start { resources: u32, locks: u32 },
    Request { client: u32, mode: u32, name: Vec<u8> },
    Convert { client: u32, lock: u32, mode: u32 },
    Release { client: u32, lock: u32 },
    Cancel { client: u32, lock: u32 },
    Purge { client: u32 },
    Break,
    Poll { client: u32 },
    Read { client: u32, lock: u32 },
    List { client: u32, lock: u32 },
    Image,
    Load { image: Vec<u8> },
    Holder { image: Vec<u8>, name: Vec<u8> },
    Sound,
}

/// Areas that calls write to, made once so that no timing has their making in it.
pub struct Areas {
    pub value: [u8; VALUE_BYTES],
    pub entries: Vec<zamgyorud::raw::Entry>,
    pub flat_entries: Vec<[u32; 5]>,
    pub image: Vec<u8>,
}

impl Areas {
    pub fn new(tables: &Tables) -> Areas {
        Areas {
            value: [0; VALUE_BYTES],
            entries: vec![Default::default(); MOST_LOCKS as usize],
            flat_entries: vec![Default::default(); MOST_LOCKS as usize],
            image: vec![0; layout::image(tables.words.len(), tables.slots.len())],
        }
    }
}

/// A manager that can make calls, with answers as in zamgyorud.h.
pub trait Manager {
    fn make(call: &Call, tables: &mut Tables, areas: &mut Areas) -> u64;
}

/// The compiled library.
pub struct Library;

impl Manager for Library {
    fn make(call: &Call, t: &mut Tables, areas: &mut Areas) -> u64 {
        use zamgyorud::raw;
        let (words, slots) = (&mut t.words[..], &mut t.slots[..]);
        match call {
            Call::Start { resources, locks } => raw::start(words, slots, *resources, *locks).bits,
            Call::Request { client, mode, name } => raw::request(words, slots, *client, *mode, 0, name).bits,
            Call::Convert { client, lock, mode } => raw::convert(words, slots, *client, *lock, *mode, 0, &[]).bits,
            Call::Release { client, lock } => raw::release(words, slots, *client, *lock, 0, &[]).bits,
            Call::Cancel { client, lock } => raw::cancel(words, slots, *client, *lock).bits,
            Call::Purge { client } => raw::purge(words, slots, *client).bits,
            Call::Break => raw::break_deadlock(words, slots).bits,
            Call::Poll { client } => raw::poll(words, slots, *client).bits,
            Call::Read { client, lock } => raw::read(words, slots, *client, *lock, &mut areas.value).bits,
            Call::List { client, lock } => raw::list(words, slots, *client, *lock, &mut areas.entries).bits,
            Call::Image => raw::image(words, slots, &mut areas.image).bits,
            Call::Load { image } => raw::load(image, words, slots).bits,
            Call::Holder { image, name } => u64::from(raw::holder(image, name).bits),
            Call::Sound => u64::from(raw::sound(words, slots)),
        }
    }
}

/// The plain Rust manager.
pub struct Flat;

const REFUSED: u64 = 1 << 63;

fn three(answer: Result<(u32, u32, u32), u32>) -> u64 {
    let accepted = |(result, lock, mark)| u64::from(mark) << 32 | u64::from(lock) << 16 | u64::from(result);
    answer.map_or_else(|number| REFUSED | u64::from(number), accepted)
}

fn two(answer: Result<(u32, u32), u32>) -> u64 {
    three(answer.map(|(result, lock)| (result, lock, 0)))
}

fn one(answer: Result<u32, u32>) -> u64 {
    two(answer.map(|result| (result, 0)))
}

fn none(answer: Result<(), u32>) -> u64 {
    one(answer.map(|()| 0))
}

fn denied(answer: Result<u32, u32>) -> u64 {
    two(answer.map(|lock| (lock, lock)))
}

impl Manager for Flat {
    fn make(call: &Call, t: &mut Tables, areas: &mut Areas) -> u64 {
        let (words, slots) = (&mut t.words[..], &mut t.slots[..]);
        match call {
            Call::Start { resources, locks } => none(flat::start(words, slots, *resources, *locks)),
            Call::Request { client, mode, name } => two(flat::request(words, slots, *client, *mode, 0, name)),
            Call::Convert { client, lock, mode } => one(flat::convert(words, slots, *client, *lock, *mode, 0, &[])),
            Call::Release { client, lock } => none(flat::release(words, slots, *client, *lock, 0, &[])),
            Call::Cancel { client, lock } => one(flat::cancel(words, slots, *client, *lock)),
            Call::Purge { client } => three(flat::purge(words, slots, *client)),
            Call::Break => denied(flat::break_deadlock(words, slots)),
            Call::Poll { client } => three(flat::poll(words, slots, *client)),
            Call::Read { client, lock } => one(flat::read(words, slots, *client, *lock).map(|(value, valid)| {
                areas.value = value;
                u32::from(valid)
            })),
            Call::List { client, lock } => one(flat::list(words, slots, *client, *lock, &mut areas.flat_entries)),
            Call::Image => none(flat::image(words, slots, &mut areas.image)),
            Call::Load { image } => none(flat::load(image, words, slots)),
            Call::Holder { image, name } => flat::holder(image, name).map_or_else(|number| 256 + u64::from(number), u64::from),
            Call::Sound => u64::from(flat::sound(words, slots)),
        }
    }
}

/// The result in an accepted call's answer.
pub fn result(answer: u64) -> u32 {
    u32::from(answer as u16)
}

/// The lock in an accepted call's answer.
pub fn lock(answer: u64) -> u32 {
    result(answer >> 16)
}

/// Whether an answer is a refusal.
pub fn refused(answer: u64) -> bool {
    answer & REFUSED != 0
}
