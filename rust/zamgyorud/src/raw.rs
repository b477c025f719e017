//! The C interface over slices, with the answers as the library gives them: numbers in one layout, which is told here and nowhere else.
//!
//! These functions are safe: a slice is a pointer and a length that belong together, which is all that the library asks for. Every content of
//! tables, names and values is allowed; what isn't right is refused. For typed answers see [`Tables`](crate::Tables).

/// What a call answers, except [`sound`] and [`holder`]: C's `struct zamgyorud_answer`. With the highest bit set it is a refusal, whose
/// number is below. Otherwise bits 0 to 15 are the result, bits 16 to 31 the lock, and bits 32 to 47 the mark; of [`purge`] they are its
/// three counts.
///
/// ```
/// # use zamgyorud::raw::Answer;
/// let waiting = Answer { bits: 3 << 16 | 2 };
/// assert_eq!((waiting.refusal(), waiting.result(), waiting.lock(), waiting.mark()), (0, 2, 3, 0));
/// let polled = Answer { bits: 5 << 32 | 1 << 16 };
/// assert_eq!((polled.refusal(), polled.result(), polled.lock(), polled.mark()), (0, 0, 1, 5));
/// let purged = Answer { bits: 1 << 32 | 2 << 16 | 5 };
/// assert_eq!((purged.refusal(), purged.result(), purged.purged_blocked(), purged.purged_unread()), (0, 5, 2, 1));
/// let refused = Answer { bits: 1 << 63 | 13 };
/// assert_eq!((refused.refusal(), refused.result(), refused.lock(), refused.mark()), (13, 0, 0, 0));
/// ```
#[repr(transparent)]
#[derive(Clone, Copy, Debug, PartialEq, Eq)]
pub struct Answer {
    /// All of it.
    pub bits: u64,
}

impl Answer {
    fn is_refused(self) -> bool {
        self.bits >> 63 != 0
    }

    /// A number of 16 bits at a place, of an accepted call.
    fn number(self, first_bit: u32) -> u32 {
        if self.is_refused() { 0 } else { u32::from((self.bits >> first_bit) as u16) }
    }

    /// The refusal's number; 0 if the call was accepted.
    pub fn refusal(self) -> u32 {
        if self.is_refused() { self.bits as u32 } else { 0 }
    }

    /// What the call says; 0 if it was refused.
    pub fn result(self) -> u32 {
        self.number(0)
    }

    /// The lock that request gives, break has denied or poll tells of; 0 for all other calls but purge, of whose answer this is the second
    /// count and no lock, and if it was refused.
    pub fn lock(self) -> u32 {
        self.number(16)
    }

    /// The mark that poll tells of, a mode from 1 to 5; 0 if the lock has none, for all other calls but purge, of whose answer this is the
    /// third count and no mark, and if it was refused.
    pub fn mark(self) -> u32 {
        self.number(32)
    }

    /// How many of the locks that purge freed were blocked; 0 if it was refused. Of any other call's answer this means nothing.
    pub fn purged_blocked(self) -> u32 {
        self.number(16)
    }

    /// How many of the locks that purge freed had a completion unread; 0 if it was refused. Of any other call's answer this means nothing.
    pub fn purged_unread(self) -> u32 {
        self.number(32)
    }
}

/// What [`holder`] answers: C's `struct zamgyorud_held`. A client's number or 0; a refusal is 256 plus its number.
///
/// ```
/// # use zamgyorud::raw::Held;
/// assert_eq!((Held { bits: 2 }.refusal(), Held { bits: 2 }.client()), (0, 2));
/// assert_eq!((Held { bits: 262 }.refusal(), Held { bits: 262 }.client()), (6, u32::MAX));
/// ```
#[repr(transparent)]
#[derive(Clone, Copy, Debug, PartialEq, Eq)]
pub struct Held {
    /// All of it.
    pub bits: u32,
}

impl Held {
    /// The refusal's number; 0 if the question was answered.
    pub fn refusal(self) -> u32 {
        self.bits.saturating_sub(256)
    }

    /// The client that holds EX, or 0 if nobody does. If it was refused, [`u32::MAX`], which is no client's number.
    pub fn client(self) -> u32 {
        if self.refusal() == 0 { self.bits } else { u32::MAX }
    }
}

/// A lock, as [`list`] gives it: C's `struct zamgyorud_entry`.
#[repr(C)]
#[derive(Clone, Copy, Debug, Default, PartialEq, Eq)]
pub struct Entry {
    /// The lock.
    pub number: u32,
    /// Its client.
    pub client: u32,
    /// 1 granted, 2 converting, 3 waiting.
    pub state: u32,
    /// The mode that it holds, or 0.
    pub held: u32,
    /// The mode that it asks for, or 0.
    pub asked: u32,
}

mod c {
    use super::{Answer, Entry, Held};

    unsafe extern "C" {
        pub fn zamgyorud_start(words: *mut u32, words_len: usize, slots: *mut u8, slots_len: usize, resources: u32, locks: u32) -> Answer;
        pub fn zamgyorud_request(
            words: *mut u32,
            words_len: usize,
            slots: *mut u8,
            slots_len: usize,
            client: u32,
            mode: u32,
            flags: u32,
            name: *const u8,
            name_len: usize,
        ) -> Answer;
        pub fn zamgyorud_convert(
            words: *mut u32,
            words_len: usize,
            slots: *mut u8,
            slots_len: usize,
            client: u32,
            lock: u32,
            mode: u32,
            flags: u32,
            value: *const u8,
            value_len: usize,
        ) -> Answer;
        pub fn zamgyorud_release(
            words: *mut u32,
            words_len: usize,
            slots: *mut u8,
            slots_len: usize,
            client: u32,
            lock: u32,
            flags: u32,
            value: *const u8,
            value_len: usize,
        ) -> Answer;
        pub fn zamgyorud_cancel(words: *mut u32, words_len: usize, slots: *const u8, slots_len: usize, client: u32, lock: u32) -> Answer;
        pub fn zamgyorud_purge(words: *mut u32, words_len: usize, slots: *mut u8, slots_len: usize, client: u32) -> Answer;
        pub fn zamgyorud_break(words: *mut u32, words_len: usize, slots: *const u8, slots_len: usize) -> Answer;
        pub fn zamgyorud_poll(words: *mut u32, words_len: usize, slots: *const u8, slots_len: usize, client: u32) -> Answer;
        pub fn zamgyorud_read(
            words: *const u32,
            words_len: usize,
            slots: *const u8,
            slots_len: usize,
            client: u32,
            lock: u32,
            value: *mut u8,
            value_len: usize,
        ) -> Answer;
        pub fn zamgyorud_list(
            words: *const u32,
            words_len: usize,
            slots: *const u8,
            slots_len: usize,
            client: u32,
            lock: u32,
            entries: *mut Entry,
            entries_len: usize,
        ) -> Answer;
        pub fn zamgyorud_image(
            words: *const u32,
            words_len: usize,
            slots: *const u8,
            slots_len: usize,
            area: *mut u8,
            area_len: usize,
        ) -> Answer;
        pub fn zamgyorud_load(
            image: *const u8,
            image_len: usize,
            words: *mut u32,
            words_len: usize,
            slots: *mut u8,
            slots_len: usize,
        ) -> Answer;
        pub fn zamgyorud_sound(words: *const u32, words_len: usize, slots: *const u8, slots_len: usize) -> u32;
        pub fn zamgyorud_holder(image: *const u8, image_len: usize, name: *const u8, name_len: usize) -> Held;
    }
}

/// Calls a function of the library. An argument in brackets is a slice, `mut` if the library may write to it, and becomes a pointer and a
/// length.
macro_rules! call {
    ($function:ident($($arguments:tt)*)) => { call!(@ $function () $($arguments)*) };
    (@ $function:ident ($($done:tt)*) mut [$slice:expr] $(, $($rest:tt)*)?) => {
        call!(@ $function ($($done)* $slice.as_mut_ptr(), $slice.len(),) $($($rest)*)?)
    };
    (@ $function:ident ($($done:tt)*) [$slice:expr] $(, $($rest:tt)*)?) => {
        call!(@ $function ($($done)* $slice.as_ptr(), $slice.len(),) $($($rest)*)?)
    };
    (@ $function:ident ($($done:tt)*) $number:expr $(, $($rest:tt)*)?) => {
        call!(@ $function ($($done)* $number,) $($($rest)*)?)
    };
    // SAFETY: each pointer and length are those of one slice, borrowed mutably where the library writes, and live for the whole call. The
    // library keeps no pointer and takes any content.
    (@ $function:ident ($($done:tt)*)) => { unsafe { c::$function($($done)*) } };
}

/// Fresh tables.
pub fn start(words: &mut [u32], slots: &mut [u8], resources: u32, locks: u32) -> Answer {
    call!(zamgyorud_start(mut [words], mut [slots], resources, locks))
}

/// A lock of a mode on a name.
pub fn request(words: &mut [u32], slots: &mut [u8], client: u32, mode: u32, flags: u32, name: &[u8]) -> Answer {
    call!(zamgyorud_request(mut [words], mut [slots], client, mode, flags, [name]))
}

/// A granted lock to another mode.
pub fn convert(words: &mut [u32], slots: &mut [u8], client: u32, lock: u32, mode: u32, flags: u32, value: &[u8]) -> Answer {
    call!(zamgyorud_convert(mut [words], mut [slots], client, lock, mode, flags, [value]))
}

/// A granted lock is freed.
pub fn release(words: &mut [u32], slots: &mut [u8], client: u32, lock: u32, flags: u32, value: &[u8]) -> Answer {
    call!(zamgyorud_release(mut [words], mut [slots], client, lock, flags, [value]))
}

/// A blocked lock waits no longer.
pub fn cancel(words: &mut [u32], slots: &[u8], client: u32, lock: u32) -> Answer {
    call!(zamgyorud_cancel(mut [words], [slots], client, lock))
}

/// All locks of a client are freed: how many, how many of them blocked, and how many with a completion unread.
pub fn purge(words: &mut [u32], slots: &mut [u8], client: u32) -> Answer {
    call!(zamgyorud_purge(mut [words], mut [slots], client))
}

/// Breaks a deadlock, if there is one.
pub fn break_deadlock(words: &mut [u32], slots: &[u8]) -> Answer {
    call!(zamgyorud_break(mut [words], [slots]))
}

/// Takes a client's first notice; if there is none, its lock is 0.
pub fn poll(words: &mut [u32], slots: &[u8], client: u32) -> Answer {
    call!(zamgyorud_poll(mut [words], [slots], client))
}

/// The value block of a lock's resource; where it is refused, `value` stays as it is.
pub fn read(words: &[u32], slots: &[u8], client: u32, lock: u32, value: &mut [u8]) -> Answer {
    call!(zamgyorud_read([words], [slots], client, lock, mut [value]))
}

/// The locks of a lock's resource, as many as fit. Entries past these stay as they are.
pub fn list(words: &[u32], slots: &[u8], client: u32, lock: u32, entries: &mut [Entry]) -> Answer {
    call!(zamgyorud_list([words], [slots], client, lock, mut [entries]))
}

/// The tables as bytes.
pub fn image(words: &[u32], slots: &[u8], area: &mut [u8]) -> Answer {
    call!(zamgyorud_image([words], [slots], mut [area]))
}

/// The tables of an image.
pub fn load(image: &[u8], words: &mut [u32], slots: &mut [u8]) -> Answer {
    call!(zamgyorud_load([image], mut [words], mut [slots]))
}

/// Whether tables are sound: 1 or 0.
pub fn sound(words: &[u32], slots: &[u8]) -> u32 {
    call!(zamgyorud_sound([words], [slots]))
}

/// The client that holds EX on a name in an image.
pub fn holder(image: &[u8], name: &[u8]) -> Held {
    call!(zamgyorud_holder([image], [name]))
}
