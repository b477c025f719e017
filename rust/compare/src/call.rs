//! A call as a value: what it is given, so that a list of calls can be played again.

use crate::manager::{Tables, result};
use crate::sizes::lengths;
use std::fmt;
use std::rc::Rc;

/// One call, or one on tables that were changed for it.
#[derive(Clone, Debug)]
pub enum Call {
    /// On junk tables of these lengths, which become the game's if it is accepted.
    Start {
        resources: u32,
        locks: u32,
        words: usize,
        slots: usize,
    },
    Request {
        client: u32,
        mode: u32,
        flags: u32,
        name: Vec<u8>,
    },
    Convert {
        client: u32,
        lock: u32,
        mode: u32,
        flags: u32,
        value: Vec<u8>,
    },
    Release {
        client: u32,
        lock: u32,
        flags: u32,
        value: Vec<u8>,
    },
    Cancel {
        client: u32,
        lock: u32,
    },
    Purge {
        client: u32,
    },
    Break,
    Poll {
        client: u32,
    },
    /// Into an area of so many bytes.
    Read {
        client: u32,
        lock: u32,
        room: usize,
    },
    /// Into a list of so many entries.
    List {
        client: u32,
        lock: u32,
        room: usize,
    },
    /// Into an area of so many bytes.
    Image {
        room: usize,
    },
    /// Into junk tables of these lengths, which become the game's if it is accepted.
    Load {
        image: Image,
        words: usize,
        slots: usize,
    },
    Holder {
        image: Image,
        name: Vec<u8>,
    },
    Sound,
    /// Changes the tables, and makes a call on what comes of it. If that is sound and `stays` is set, the game goes on from there; else the
    /// tables are as before.
    Damaged {
        changes: Changes,
        call: Box<Call>,
        stays: bool,
    },
}

/// Changes to tables, and the label of the damage that they are. Changes anywhere have no label.
#[derive(Clone, Debug, Default)]
pub struct Changes {
    pub label: &'static str,
    pub list: Vec<Change>,
}

/// A change to tables.
#[derive(Clone, Copy, Debug, PartialEq, Eq)]
pub enum Change {
    Word(usize, u32),
    Byte(usize, u8),
    WordsLength(usize),
    SlotsLength(usize),
}

/// An image for load and holder.
#[derive(Clone, Debug)]
pub enum Image {
    /// That of the game's tables, with changes made to the tables before and to its length after.
    OfTables { changes: Changes, longer_by: isize },
    /// Given bytes.
    Bytes(Rc<[u8]>),
}

/// Makes changes to tables. Those that are out of reach make none.
pub fn damage(tables: &mut Tables, changes: &[Change]) {
    for change in changes {
        match *change {
            Change::Word(at, word) => tables.words.iter_mut().skip(at).take(1).for_each(|old| *old = word),
            Change::Byte(at, byte) => tables.slots.iter_mut().skip(at).take(1).for_each(|old| *old = byte),
            Change::WordsLength(length) => tables.words.resize(length, 0),
            Change::SlotsLength(length) => tables.slots.resize(length, 0),
        }
    }
}

impl Image {
    pub fn bytes(&self, tables: &Tables) -> Vec<u8> {
        match self {
            Image::OfTables { changes, longer_by } => {
                let mut changed = tables.clone();
                damage(&mut changed, &changes.list);
                let mut bytes = changed.bytes();
                bytes.resize(bytes.len().saturating_add_signed(*longer_by), 0);
                bytes
            }
            Image::Bytes(bytes) => bytes.to_vec(),
        }
    }
}

/// The entries, for counting.
#[derive(Clone, Copy, Debug, PartialEq, Eq, PartialOrd, Ord)]
pub enum Entry {
    Start,
    Request,
    Convert,
    Release,
    Cancel,
    Purge,
    Break,
    Poll,
    Read,
    List,
    Image,
    Load,
    Holder,
    Sound,
}

impl Entry {
    pub const ALL: [Entry; 14] = [
        Entry::Start,
        Entry::Request,
        Entry::Convert,
        Entry::Release,
        Entry::Cancel,
        Entry::Purge,
        Entry::Break,
        Entry::Poll,
        Entry::Read,
        Entry::List,
        Entry::Image,
        Entry::Load,
        Entry::Holder,
        Entry::Sound,
    ];

    /// The kinds of answers it can give when it is accepted.
    pub fn answers(self) -> &'static [&'static str] {
        match self {
            Entry::Start | Entry::Release | Entry::Image | Entry::Load => &["0"],
            Entry::Request | Entry::Convert | Entry::Cancel => &["1", "2"],
            Entry::Poll => &["0", "1", "2", "3"],
            Entry::Purge | Entry::Break | Entry::Holder => &["0", "a number"],
            Entry::List => &["a number"],
            Entry::Read | Entry::Sound => &["0", "1"],
        }
    }

    /// Which of these an answer is.
    pub fn answer_kind(self, answer: u64) -> &'static str {
        let plain = match result(answer) {
            0 => "0",
            1 => "1",
            2 => "2",
            3 => "3",
            _ => "",
        };
        if self.answers().contains(&plain) { plain } else { "a number" }
    }
}

impl Call {
    /// A start on tables of just the lengths that R and L call for.
    pub fn start(resources: u32, locks: u32) -> Call {
        let (words, slots) = lengths(resources, locks);
        Call::Start { resources, locks, words, slots }
    }

    /// Which entry the call goes to.
    pub fn entry(&self) -> Entry {
        match self {
            Call::Start { .. } => Entry::Start,
            Call::Request { .. } => Entry::Request,
            Call::Convert { .. } => Entry::Convert,
            Call::Release { .. } => Entry::Release,
            Call::Cancel { .. } => Entry::Cancel,
            Call::Purge { .. } => Entry::Purge,
            Call::Break => Entry::Break,
            Call::Poll { .. } => Entry::Poll,
            Call::Read { .. } => Entry::Read,
            Call::List { .. } => Entry::List,
            Call::Image { .. } => Entry::Image,
            Call::Load { .. } => Entry::Load,
            Call::Holder { .. } => Entry::Holder,
            Call::Sound => Entry::Sound,
            Call::Damaged { call, .. } => call.entry(),
        }
    }
}

/// Bytes as a person can read them.
fn shown(bytes: &[u8]) -> String {
    format!("\"{}\" ({} bytes)", bytes.escape_ascii(), bytes.len())
}

impl fmt::Display for Changes {
    fn fmt(&self, f: &mut fmt::Formatter) -> fmt::Result {
        let what = if self.label.is_empty() { "anywhere" } else { self.label };
        write!(f, "\"{what}\" {:?}", self.list)
    }
}

impl fmt::Display for Entry {
    fn fmt(&self, f: &mut fmt::Formatter) -> fmt::Result {
        f.pad(&format!("{self:?}").to_lowercase())
    }
}

impl fmt::Display for Image {
    fn fmt(&self, f: &mut fmt::Formatter) -> fmt::Result {
        match self {
            Image::OfTables { changes, longer_by } => write!(f, "image of the tables, changes {changes}, longer by {longer_by}"),
            Image::Bytes(bytes) => write!(f, "image of {} bytes made from the seed", bytes.len()),
        }
    }
}

impl fmt::Display for Call {
    fn fmt(&self, f: &mut fmt::Formatter) -> fmt::Result {
        match self {
            Call::Start { resources, locks, words, slots } => write!(f, "start R {resources} L {locks} on {words} words, {slots} bytes"),
            Call::Request { client, mode, flags, name } => write!(f, "request client {client} mode {mode} flags {flags} {}", shown(name)),
            Call::Convert { client, lock, mode, flags, value } => {
                write!(f, "convert client {client} lock {lock} mode {mode} flags {flags} value {}", shown(value))
            }
            Call::Release { client, lock, flags, value } => {
                write!(f, "release client {client} lock {lock} flags {flags} value {}", shown(value))
            }
            Call::Cancel { client, lock } => write!(f, "cancel client {client} lock {lock}"),
            Call::Purge { client } => write!(f, "purge client {client}"),
            Call::Break => write!(f, "break"),
            Call::Poll { client } => write!(f, "poll client {client}"),
            Call::Read { client, lock, room } => write!(f, "read client {client} lock {lock} into {room} bytes"),
            Call::List { client, lock, room } => write!(f, "list client {client} lock {lock} into {room} entries"),
            Call::Image { room } => write!(f, "image into {room} bytes"),
            Call::Load { image, words, slots } => write!(f, "load {image} into {words} words, {slots} bytes"),
            Call::Holder { image, name } => write!(f, "holder of {} in {image}", shown(name)),
            Call::Sound => write!(f, "sound"),
            Call::Damaged { changes, call, stays } => {
                let after = if *stays { "stay if sound" } else { "then undone" };
                write!(f, "changes {changes} ({after}) and {call}")
            }
        }
    }
}
