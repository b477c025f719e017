//! Modes, flags, answers and refusals as types.

use crate::layout::VALUE_BYTES;
use std::error::Error;
use std::fmt;
use std::ops::BitOr;

/// A lock mode.
#[derive(Clone, Copy, Debug, PartialEq, Eq, Hash)]
pub enum Mode {
    /// Null: no access, a placeholder for later conversions.
    Nl,
    /// Concurrent read.
    Cr,
    /// Concurrent write.
    Cw,
    /// Protected read: others may read.
    Pr,
    /// Protected write: others may read without protection.
    Pw,
    /// Exclusive.
    Ex,
}

impl Mode {
    /// All modes, in the order of their numbers.
    pub const ALL: [Mode; 6] = [Mode::Nl, Mode::Cr, Mode::Cw, Mode::Pr, Mode::Pw, Mode::Ex];

    /// The mode of a number, if it is 0 to 5.
    pub fn from_number(number: u32) -> Option<Mode> {
        Mode::ALL.get(number as usize).copied()
    }

    /// The number that the C interface has for it.
    pub fn number(self) -> u32 {
        self as u32
    }
}

impl fmt::Display for Mode {
    fn fmt(&self, f: &mut fmt::Formatter) -> fmt::Result {
        f.pad(["NL", "CR", "CW", "PR", "PW", "EX"][*self as usize])
    }
}

/// A set of flags for request, convert and release.
#[derive(Clone, Copy, Debug, Default, PartialEq, Eq, Hash)]
pub struct Flags(u32);

impl Flags {
    /// No flag.
    pub const NONE: Flags = Flags(0);
    /// Store the value given (convert, release).
    pub const STORE_VALUE: Flags = Flags(1);
    /// Make the value not valid (convert, release).
    pub const INVALIDATE_VALUE: Flags = Flags(2);
    /// Refuse the call with [`Refusal::Blocks`] exactly where it would wait without this flag (request, convert).
    pub const NO_QUEUE: Flags = Flags(4);

    /// Flags of any bits; those that a call doesn't allow are refused by it.
    pub fn from_bits(bits: u32) -> Flags {
        Flags(bits)
    }

    /// The bits.
    pub fn bits(self) -> u32 {
        self.0
    }
}

impl BitOr for Flags {
    type Output = Flags;

    fn bitor(self, other: Flags) -> Flags {
        Flags(self.0 | other.0)
    }
}

/// What request and convert answer.
#[derive(Clone, Copy, Debug, PartialEq, Eq)]
pub enum Outcome {
    /// The lock has its mode.
    Granted,
    /// The lock is queued; [`Tables::poll`](crate::Tables::poll) tells when that has ended.
    Waiting,
}

/// What cancel took back.
#[derive(Clone, Copy, Debug, PartialEq, Eq)]
pub enum Cancelled {
    /// A conversion: the lock has the mode that it had.
    Conversion,
    /// A request: the lock is gone.
    Request,
}

/// What a purge freed. No lock is in both of the last two numbers. Their sum is how many calls of the client were still open: they answered
/// [`Outcome::Waiting`], and no poll will tell of them any more.
#[derive(Clone, Copy, Debug, PartialEq, Eq)]
pub struct Purged {
    /// How many locks, in whatever state.
    pub locks: u32,
    /// How many of them were blocked: converting, or waiting.
    pub blocked: u32,
    /// How many of them had a completion unread: their waits had ended, by a grant or a denial. A mark alone doesn't count.
    pub unread: u32,
}

/// How a blocked call ended.
#[derive(Clone, Copy, Debug, PartialEq, Eq)]
pub enum Completion {
    /// It was granted.
    Granted,
    /// The request was denied because of a deadlock; the lock is gone.
    RequestDenied,
    /// The conversion was denied because of a deadlock; the lock has the mode that it had.
    ConversionDenied,
}

/// A notice that a client polled: one of its locks, with a completion, a mark or both.
#[derive(Clone, Copy, Debug, PartialEq, Eq)]
pub struct Notice {
    /// The lock.
    pub lock: u32,
    /// How its blocked call ended.
    pub completion: Option<Completion>,
    /// The mode that somebody asked for and had to wait, with this lock in the way; of several the one with the largest number. Whoever asked
    /// may wait no longer: [`Tables::list`](crate::Tables::list) tells who does.
    pub mark: Option<Mode>,
}

/// On which queue a lock stands.
#[derive(Clone, Copy, Debug, PartialEq, Eq)]
pub enum Queue {
    /// The grant queue.
    Granted,
    /// The convert queue.
    Converting,
    /// The wait queue.
    Waiting,
}

/// A lock of a resource.
#[derive(Clone, Copy, Debug, PartialEq, Eq)]
pub struct Entry {
    /// The lock's number.
    pub lock: u32,
    /// Its client.
    pub client: u32,
    /// Where it stands.
    pub queue: Queue,
    /// The mode it holds; none while it waits.
    pub held: Option<Mode>,
    /// The mode it asks for; none once it is granted.
    pub asked: Option<Mode>,
}

/// A value block.
#[derive(Clone, Copy, Debug, PartialEq, Eq)]
pub struct Value {
    /// The 32 bytes.
    pub bytes: [u8; VALUE_BYTES],
    /// Whether they are valid.
    pub valid: bool,
}

/// Why a call was turned down.
#[derive(Clone, Copy, Debug, PartialEq, Eq, Hash)]
pub enum Refusal {
    /// 1: the tables aren't sound, or the image isn't that of sound tables.
    Unsound,
    /// 2: start's numbers of records or a length is wrong.
    Sizes,
    /// 3: the client isn't 1 to 255.
    Client,
    /// 4: the mode is above 5.
    Mode,
    /// 5: a flag isn't allowed, or two exclude each other.
    Flags,
    /// 6: the name has 0 or over 64 bytes.
    Name,
    /// 7: a value is to be stored and isn't 32 bytes.
    Value,
    /// 8: there is no such lock of this client.
    LockNumber,
    /// 9: the lock's completion is unread.
    Unread,
    /// 10: the lock isn't in a state for this call.
    State,
    /// 11: the name is new and no resource record is free.
    NoResource,
    /// 12: no lock record is free.
    NoLock,
    /// 13: it would have to wait, be it only because others do, and is not to be queued.
    Blocks,
    /// 14: image's area or load's tables have the wrong length.
    Lengths,
}

impl Refusal {
    /// All refusals, in the order of their numbers.
    pub const ALL: [Refusal; 14] = [
        Refusal::Unsound,
        Refusal::Sizes,
        Refusal::Client,
        Refusal::Mode,
        Refusal::Flags,
        Refusal::Name,
        Refusal::Value,
        Refusal::LockNumber,
        Refusal::Unread,
        Refusal::State,
        Refusal::NoResource,
        Refusal::NoLock,
        Refusal::Blocks,
        Refusal::Lengths,
    ];

    /// The refusal of a number, if it is 1 to 14.
    pub fn from_number(number: u32) -> Option<Refusal> {
        Refusal::ALL.into_iter().find(|refusal| refusal.number() == number)
    }

    /// Its number.
    pub fn number(self) -> u32 {
        self as u32 + 1
    }
}

impl fmt::Display for Refusal {
    fn fmt(&self, f: &mut fmt::Formatter) -> fmt::Result {
        f.write_str(match self {
            Refusal::Unsound => "the tables aren't sound, or the image isn't that of sound tables",
            Refusal::Sizes => "the numbers of resources or locks, or a length, are wrong",
            Refusal::Client => "the client isn't 1 to 255",
            Refusal::Mode => "the mode is above 5",
            Refusal::Flags => "a flag isn't allowed here, or two flags exclude each other",
            Refusal::Name => "the name has no bytes or more than 64",
            Refusal::Value => "the value to be stored isn't 32 bytes",
            Refusal::LockNumber => "there is no such lock of this client",
            Refusal::Unread => "the lock's completion hasn't been polled yet",
            Refusal::State => "the lock isn't in a state for this call",
            Refusal::NoResource => "the name is new and no resource record is free",
            Refusal::NoLock => "no lock record is free",
            Refusal::Blocks => "it would have to wait, and is not to be queued",
            Refusal::Lengths => "the image's area or the tables have the wrong length",
        })
    }
}

impl Error for Refusal {}

#[cfg(test)]
mod tests {
    use super::*;

    #[test]
    fn numbers_go_both_ways() {
        assert!((1..=14).all(|number| Refusal::from_number(number).is_some_and(|refusal| refusal.number() == number)));
        assert_eq!((Refusal::from_number(0), Refusal::from_number(15)), (None, None));
        assert!((0..6).all(|number| Mode::from_number(number).is_some_and(|mode| mode.number() == number)));
        assert_eq!(Mode::from_number(6), None);
    }

    #[test]
    fn refusals_are_told_apart_in_words() {
        let mut words: Vec<String> = Refusal::ALL.iter().map(Refusal::to_string).collect();
        words.sort();
        words.dedup();
        assert_eq!(words.len(), 14);
    }

    #[test]
    fn flags_join() {
        assert_eq!((Flags::STORE_VALUE | Flags::NO_QUEUE).bits(), 5);
        assert_eq!(Flags::from_bits(2), Flags::INVALIDATE_VALUE);
    }
}
