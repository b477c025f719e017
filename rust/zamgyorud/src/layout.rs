//! How large tables are and where things stand in them, for those who keep their own words and slots. Records are numbered from 1, the words
//! of a record from 0.

/// The most resource records.
pub const MOST_RESOURCES: u32 = 256;
/// The most lock records.
pub const MOST_LOCKS: u32 = 1024;

/// The bytes of a word in an image.
pub const WORD_BYTES: usize = 4;
/// The bytes of a slot that are the name's.
pub const NAME_BYTES: usize = 64;
/// The bytes of a slot that are the value block's, after the name's.
pub const VALUE_BYTES: usize = 32;
/// The bytes of a slot.
pub const SLOT_BYTES: usize = NAME_BYTES + VALUE_BYTES;

/// The words before the records.
#[allow(missing_docs)]
pub mod header {
    pub const RESOURCES: usize = 0;
    pub const LOCKS: usize = 1;
    pub const FREE_RESOURCE: usize = 2;
    pub const FREE_LOCK: usize = 3;
    pub const DENIED: usize = 4;
    pub const BLOCKED: usize = 5;
    pub const NOTICE: usize = 6;
    pub const ZERO: usize = 7;
    pub const WIDTH: usize = 8;
}

/// The words of a resource's record.
#[allow(missing_docs)]
pub mod resource {
    pub const NEXT: usize = 0;
    pub const GRANT: usize = 1;
    pub const CONVERT: usize = 2;
    pub const WAIT: usize = 3;
    pub const NAME_LENGTH: usize = 4;
    pub const VALIDITY: usize = 5;
    /// How many locks hold NL to EX, a word for each: granted and converting ones.
    pub const COUNTS: [usize; 6] = [6, 7, 8, 9, 10, 11];
    pub const WIDTH: usize = 12;
}

/// The words of a lock's record.
#[allow(missing_docs)]
pub mod lock {
    pub const HOME: usize = 0;
    pub const BLOCKED: usize = 1;
    pub const NOTICE: usize = 2;
    pub const RESOURCE: usize = 3;
    pub const CLIENT: usize = 4;
    pub const STATE: usize = 5;
    pub const HELD: usize = 6;
    pub const ASKED: usize = 7;
    pub const COMPLETION: usize = 8;
    pub const MARK: usize = 9;
    pub const WIDTH: usize = 10;
}

/// Whether there are tables of these numbers of records.
pub fn sizes_allowed(resources: u32, locks: u32) -> bool {
    (1..=MOST_RESOURCES).contains(&resources) && (1..=MOST_LOCKS).contains(&locks)
}

/// How many words there are for so many records.
pub fn words(resources: u32, locks: u32) -> usize {
    header::WIDTH + resource::WIDTH * resources as usize + lock::WIDTH * locks as usize
}

/// How many slot bytes there are for so many resources.
pub fn slots(resources: u32) -> usize {
    SLOT_BYTES * resources as usize
}

/// How many bytes the image of so many words and slot bytes has.
pub fn image(words: usize, slots: usize) -> usize {
    WORD_BYTES * words + slots
}

/// The place of a word of a resource's record.
pub fn resource_at(number: u32, field: usize) -> usize {
    words(number - 1, 0) + field
}

/// The place of a word of a lock's record, in tables of so many resources.
pub fn lock_at(resources: u32, number: u32, field: usize) -> usize {
    words(resources, number - 1) + field
}

/// The place of a byte of a resource's slot.
pub fn slot_at(number: u32, byte: usize) -> usize {
    slots(number - 1) + byte
}
