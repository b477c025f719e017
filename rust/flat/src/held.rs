//! How many locks hold each mode on a resource: granted and converting ones, as the resource's record counts them.

use crate::layout::{ResourceRecord, resource};
use crate::modes::{MODES, compatible};

/// The counts in one number: twelve bits for each mode, NL's lowest. So many have room for all locks. EX, which has the last four bits, is held
/// once at most where modes are compatible.
#[derive(Clone, Copy, Default)]
pub struct Held(u64);

const BITS: u32 = 12;
const COUNT: u64 = (1 << BITS) - 1;

/// For each mode, the counts of those that aren't compatible with it.
const AGAINST: [u64; MODES] = {
    let mut against = [0; MODES];
    let mut pair = 0;
    while pair < MODES * MODES {
        let (mode, other) = ((pair / MODES) as u32, (pair % MODES) as u32);
        if !compatible(mode, other) {
            against[mode as usize] |= COUNT << (BITS * other);
        }
        pair += 1;
    }
    against
};

/// The counts of a record, each with the place of its bits.
#[inline]
fn counts(record: &ResourceRecord) -> impl Iterator<Item = (u32, u64)> {
    (0..).zip(&record[resource::COUNTS]).map(|(mode, count)| (BITS * mode, u64::from(*count)))
}

impl Held {
    /// What a record of sound tables counts.
    #[inline]
    pub fn counted(record: &ResourceRecord) -> Held {
        Held(counts(record).fold(0, |all, (bit, count)| all | count << bit))
    }

    /// Whether a record, of any words, counts just these.
    #[inline]
    pub fn are_counted(self, record: &ResourceRecord) -> bool {
        counts(record).fold(0, |wrong, (bit, count)| wrong | (self.0 >> bit & COUNT ^ count)) == 0
    }

    /// Whether a mode is compatible with all that are held.
    #[inline]
    pub fn admit(self, mode: u32) -> bool {
        self.0 & AGAINST[mode as usize] == 0
    }

    /// With one lock more of a mode.
    #[inline]
    pub fn and(self, mode: u32) -> Held {
        Held(self.0 + (1 << (BITS * mode)))
    }

    /// With one lock fewer of a mode.
    #[inline]
    pub fn but(self, mode: u32) -> Held {
        Held(self.0 - (1 << (BITS * mode)))
    }
}

/// Counts a lock that held a mode, or none, and holds another now, or none.
#[inline]
pub fn recount(record: &mut ResourceRecord, held: Option<u32>, holds: Option<u32>) {
    let counts = &mut record[resource::COUNTS];
    if let Some(mode) = held {
        counts[mode as usize] -= 1;
    }
    if let Some(mode) = holds {
        counts[mode as usize] += 1;
    }
}
