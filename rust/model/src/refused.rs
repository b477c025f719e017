//! Why a call is turned down.

/// A refusal by its number in document 01, "When a call is turned down".
#[derive(Clone, Copy, Debug, PartialEq, Eq, PartialOrd, Ord, Hash)]
pub struct Refused(pub u32);

impl Refused {
    /// The tables aren't sound, or the image isn't that of sound tables.
    pub const UNSOUND: Refused = Refused(1);
    /// Start's R, L or a length is wrong.
    pub const SIZES: Refused = Refused(2);
    /// The client isn't 1 to 255.
    pub const CLIENT: Refused = Refused(3);
    /// The mode is above 5.
    pub const MODE: Refused = Refused(4);
    /// A flag isn't allowed, or 1 and 2 are both set.
    pub const FLAGS: Refused = Refused(5);
    /// The name has 0 or over 64 bytes.
    pub const NAME: Refused = Refused(6);
    /// Flag 1 is set and the value isn't 32 bytes.
    pub const VALUE: Refused = Refused(7);
    /// The lock number isn't 1 to L, or is free, or another client's.
    pub const LOCK: Refused = Refused(8);
    /// The completion of the lock is unread.
    pub const UNREAD: Refused = Refused(9);
    /// The lock isn't in a state for this call.
    pub const STATE: Refused = Refused(10);
    /// The name is new and no resource record is free.
    pub const NO_RESOURCE: Refused = Refused(11);
    /// No lock record is free.
    pub const NO_LOCK: Refused = Refused(12);
    /// Flag 4 is set and it would block.
    pub const BLOCKS: Refused = Refused(13);
    /// Image's area or load's tables have the wrong length.
    pub const LENGTHS: Refused = Refused(14);
}
