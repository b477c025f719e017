//! Where things stand in the tables; no other file of this crate writes a number of the layout. Words and slots are cut into arrays of the
//! records' sizes once, so that the fields of a record are reached without further checks.

/// The most resource records.
pub const MOST_RESOURCES: usize = 256;
/// The most lock records.
pub const MOST_LOCKS: usize = 1024;
/// The largest client number.
pub const MOST_CLIENT: usize = 255;

/// The bytes of a word in an image.
pub const WORD_BYTES: usize = 4;
/// The bytes of a slot that are the name's.
pub const NAME_BYTES: usize = 64;
/// The bytes of a slot that are the value block's, after the name's.
pub const VALUE_BYTES: usize = 32;

/// The words before the records.
#[allow(missing_docs)]
pub mod head {
    pub const RESOURCES: usize = 0;
    pub const LOCKS: usize = 1;
    pub const FREE_RESOURCE: usize = 2;
    pub const FREE_LOCK: usize = 3;
    pub const DENIED: usize = 4;
    pub const BLOCKED: usize = 5;
    pub const NOTICE: usize = 6;
    pub const ZERO: usize = 7;
    pub const WIDTH: usize = 8;
}

/// The words of a resource's record. The link comes first.
#[allow(missing_docs)]
pub mod resource {
    pub const NEXT: usize = 0;
    pub const GRANT: usize = 1;
    pub const CONVERT: usize = 2;
    pub const WAIT: usize = 3;
    pub const NAME_LENGTH: usize = 4;
    pub const VALID: usize = 5;
    /// How many locks hold NL to EX, a word for each.
    pub const COUNTS: std::ops::Range<usize> = 6..WIDTH;
    pub const WIDTH: usize = 12;
}

/// The words of a lock's record. The link of its home chain comes first.
#[allow(missing_docs)]
pub mod lock {
    pub const HOME: usize = 0;
    pub const BLOCKED: usize = 1;
    pub const NOTICE: usize = 2;
    pub const RESOURCE: usize = 3;
    pub const CLIENT: usize = 4;
    pub const STATE: usize = 5;
    pub const HELD: usize = 6;
    pub const ASKED: usize = 7;
    pub const COMPLETION: usize = 8;
    pub const MARK: usize = 9;
    pub const WIDTH: usize = 10;
}

/// States of a lock.
#[allow(missing_docs)]
pub mod state {
    pub const GRANTED: u32 = 1;
    pub const CONVERTING: u32 = 2;
    pub const WAITING: u32 = 3;
    pub const DENIED: u32 = 4;
}

/// Completions of a lock.
#[allow(missing_docs)]
pub mod completion {
    pub const NONE: u32 = 0;
    pub const GRANTED: u32 = 1;
    pub const REQUEST_DENIED: u32 = 2;
    pub const CONVERSION_DENIED: u32 = 3;
}

/// The words before the records.
pub type Head = [u32; head::WIDTH];
/// A resource's record.
pub type ResourceRecord = [u32; resource::WIDTH];
/// A lock's record.
pub type LockRecord = [u32; lock::WIDTH];
/// A value block.
pub type Value = [u8; VALUE_BYTES];
/// A resource's name and value block.
pub type Slot = [u8; NAME_BYTES + VALUE_BYTES];

/// The mode that a lock's record holds; none if it waits, is denied or free.
#[inline]
pub fn held_mode(record: &LockRecord) -> Option<u32> {
    matches!(record[lock::STATE], state::GRANTED | state::CONVERTING).then_some(record[lock::HELD])
}

/// Whether a lock's record has a completion or a mark, and so stands on the notice chain.
#[inline]
pub fn noticed(record: &LockRecord) -> bool {
    record[lock::COMPLETION] | record[lock::MARK] != 0
}

/// How many words there are for so many records.
pub fn words_for(resources: usize, locks: usize) -> usize {
    head::WIDTH + resource::WIDTH * resources + lock::WIDTH * locks
}

/// How many slot bytes there are for so many resources.
pub fn slots_for(resources: usize) -> usize {
    size_of::<Slot>() * resources
}

/// How many bytes the image of so many words and slot bytes has.
pub fn image_for(words: usize, slots: usize) -> usize {
    WORD_BYTES * words + slots
}

/// Whether start accepts these numbers of records.
pub fn sizes_allowed(resources: usize, locks: usize) -> bool {
    (1..=MOST_RESOURCES).contains(&resources) && (1..=MOST_LOCKS).contains(&locks)
}

/// Tables cut into records.
#[derive(Clone, Copy)]
#[allow(missing_docs)]
pub struct Records<'a> {
    pub head: &'a Head,
    pub resources: &'a [ResourceRecord],
    pub locks: &'a [LockRecord],
    pub slots: &'a [Slot],
}

impl<'a> Records<'a> {
    /// The records, if the sizes are allowed and the lengths are theirs.
    pub fn cut(words: &'a [u32], slots: &'a [u8]) -> Option<Records<'a>> {
        let (head, records) = words.split_first_chunk::<{ head::WIDTH }>()?;
        let (resources, locks) = (head[head::RESOURCES] as usize, head[head::LOCKS] as usize);
        if !sizes_allowed(resources, locks) || words.len() != words_for(resources, locks) || slots.len() != slots_for(resources) {
            return None;
        }
        let (resources, locks) = records.split_at(resource::WIDTH * resources);
        Some(Records { head, resources: resources.as_chunks().0, locks: locks.as_chunks().0, slots: slots.as_chunks().0 })
    }
}
