//! The soundness check.
//!
//! A chain that ends has each of its records once, since a record that came twice would come forever. Each home chain asks for a state and
//! a resource of its own, so no lock can be on two of them. What is left is counting: the home chains together must have exactly L locks,
//! the blocked chain as many as are blocked, the notice chain as many as have a completion or a mark, the free chain as many resources as
//! have no name, and a resource as many locks of each mode as its record says.

use crate::held::Held;
use crate::layout::{
    LockRecord, MOST_CLIENT, MOST_RESOURCES, NAME_BYTES, Records, ResourceRecord, Slot, completion, head, lock, noticed, resource, state,
};
use crate::modes::EX;

/// Whether tables are sound.
pub fn sound(words: &[u32], slots: &[u8]) -> bool {
    Records::cut(words, slots).is_some_and(|records| records.sound())
}

/// What the walk along the home chains has met.
#[derive(Default)]
struct Census {
    locks: usize,
    blocked: usize,
    noticed: usize,
}

/// Stops a check with `?` unless something is right.
#[inline]
fn need(right: bool) -> Option<()> {
    right.then_some(())
}

/// Whether words are all zero, without a branch for each.
#[inline]
fn all_zero(words: &[u32]) -> bool {
    words.iter().fold(0, |sum, word| sum | word) == 0
}

/// Whether bytes are zero from a place on, eight at a time. Their number is a multiple of eight.
#[inline]
fn zero_from(bytes: &[u8], from: usize) -> bool {
    let eights = bytes.as_chunks::<8>().0;
    let Some((first, rest)) = eights.get(from / 8..).and_then(<[_]>::split_first) else { return true };
    let first = u64::from_le_bytes(*first) >> (8 * (from % 8));
    rest.iter().fold(first, |sum, eight| sum | u64::from_le_bytes(*eight)) == 0
}

/// What all locks in use have: a client, modes in range, and no link on a chain that they aren't on.
#[inline]
fn in_use(record: &LockRecord, blocked: bool, noticed: bool) -> bool {
    record[lock::CLIENT].wrapping_sub(1) < MOST_CLIENT as u32
        && record[lock::HELD] <= EX
        && record[lock::ASKED] <= EX
        && (blocked || record[lock::BLOCKED] == 0)
        && (noticed || record[lock::NOTICE] == 0)
}

impl Records<'_> {
    pub(crate) fn sound(&self) -> bool {
        self.check().is_some()
    }

    fn check(&self) -> Option<()> {
        let mut census = Census::default();
        need(self.head[head::ZERO] == 0)?;
        self.free_locks(&mut census)?;
        self.denied_locks(&mut census)?;
        let mut used = 0;
        for (at, record) in self.resources.iter().enumerate() {
            if record[resource::NAME_LENGTH] == 0 {
                need(all_zero(&record[resource::NEXT + 1..]) && zero_from(&self.slots[at], 0))?;
            } else {
                used += 1;
                self.used_resource(at as u32 + 1, record, &self.slots[at], &mut census)?;
            }
        }
        self.free_resources(self.resources.len() - used)?;
        need(census.locks == self.locks.len())?;
        let is_blocked = |record: &LockRecord| matches!(record[lock::STATE], state::CONVERTING | state::WAITING);
        self.side_chain(self.head[head::BLOCKED], lock::BLOCKED, census.blocked, is_blocked)?;
        self.side_chain(self.head[head::NOTICE], lock::NOTICE, census.noticed, noticed)?;
        need(self.names_differ())
    }

    /// Walks a home chain; every lock on it must pass.
    #[inline]
    fn home_chain(&self, first: u32, census: &mut Census, mut pass: impl FnMut(&LockRecord) -> bool) -> Option<()> {
        let mut at = first as usize;
        while at != 0 {
            let record = self.locks.get(at - 1)?;
            census.locks += 1;
            need(census.locks <= self.locks.len() && pass(record))?;
            at = record[lock::HOME] as usize;
        }
        Some(())
    }

    fn free_locks(&self, census: &mut Census) -> Option<()> {
        self.home_chain(self.head[head::FREE_LOCK], census, |record| all_zero(&record[lock::HOME + 1..]))
    }

    fn denied_locks(&self, census: &mut Census) -> Option<()> {
        let before = census.locks;
        self.home_chain(self.head[head::DENIED], census, |record| {
            record[lock::STATE] == state::DENIED
                && record[lock::RESOURCE] == 0
                && record[lock::HELD] == 0
                && record[lock::ASKED] == 0
                && record[lock::COMPLETION] == completion::REQUEST_DENIED
                && record[lock::MARK] == 0
                && in_use(record, false, true)
        })?;
        census.noticed += census.locks - before;
        Some(())
    }

    fn used_resource(&self, number: u32, record: &ResourceRecord, slot: &Slot, census: &mut Census) -> Option<()> {
        let length = record[resource::NAME_LENGTH] as usize;
        need(record[resource::NEXT] == 0 && record[resource::VALID] <= 1)?;
        need(length <= NAME_BYTES && zero_from(&slot[..NAME_BYTES], length))?;
        let before = census.locks;
        let mut held = Held::default();
        self.granted_locks(number, record[resource::GRANT], &mut held, census)?;
        self.converting_locks(number, record[resource::CONVERT], &mut held, census)?;
        self.waiting_locks(number, record, held, census)?;
        need(census.locks > before && held.are_counted(record))
    }

    fn granted_locks(&self, number: u32, first: u32, held: &mut Held, census: &mut Census) -> Option<()> {
        let mut notices = 0;
        self.home_chain(first, census, |record| {
            let told = record[lock::COMPLETION];
            let right = record[lock::STATE] == state::GRANTED
                && record[lock::RESOURCE] == number
                && record[lock::ASKED] == 0
                && matches!(told, completion::NONE | completion::GRANTED | completion::CONVERSION_DENIED)
                && record[lock::MARK] <= EX
                && in_use(record, false, noticed(record))
                && held.admit(record[lock::HELD]);
            notices += usize::from(noticed(record));
            if right {
                *held = held.and(record[lock::HELD]);
            }
            right
        })?;
        census.noticed += notices;
        Some(())
    }

    fn converting_locks(&self, number: u32, first: u32, held: &mut Held, census: &mut Census) -> Option<()> {
        let before = census.locks;
        let mut notices = 0;
        self.home_chain(first, census, |record| {
            let right = record[lock::STATE] == state::CONVERTING
                && record[lock::RESOURCE] == number
                && record[lock::COMPLETION] == completion::NONE
                && record[lock::MARK] <= EX
                && in_use(record, true, noticed(record))
                && held.admit(record[lock::HELD]);
            notices += usize::from(noticed(record));
            if right {
                *held = held.and(record[lock::HELD]);
            }
            right
        })?;
        census.blocked += census.locks - before;
        census.noticed += notices;
        if first == 0 {
            return Some(());
        }
        // The head must not be grantable beside the others.
        let head = &self.locks[first as usize - 1];
        need(!held.but(head[lock::HELD]).admit(head[lock::ASKED]))
    }

    fn waiting_locks(&self, number: u32, record: &ResourceRecord, held: Held, census: &mut Census) -> Option<()> {
        let before = census.locks;
        let first = record[resource::WAIT];
        self.home_chain(first, census, |record| {
            record[lock::STATE] == state::WAITING
                && record[lock::RESOURCE] == number
                && record[lock::HELD] == 0
                && !noticed(record)
                && in_use(record, true, false)
        })?;
        census.blocked += census.locks - before;
        let held_up = first == 0 || record[resource::CONVERT] != 0 || !held.admit(self.locks[first as usize - 1][lock::ASKED]);
        need(held_up)
    }

    /// The free chain must have as many resources as have no name, and only such.
    fn free_resources(&self, count: usize) -> Option<()> {
        let mut left = count;
        let mut at = self.head[head::FREE_RESOURCE] as usize;
        while at != 0 {
            let record = self.resources.get(at - 1)?;
            left = left.checked_sub(1)?;
            need(record[resource::NAME_LENGTH] == 0)?;
            at = record[resource::NEXT] as usize;
        }
        need(left == 0)
    }

    /// The blocked or notice chain must have so many locks, and only such as belong there.
    fn side_chain(&self, first: u32, link: usize, count: usize, belongs: impl Fn(&LockRecord) -> bool) -> Option<()> {
        let mut left = count;
        let mut at = first as usize;
        while at != 0 {
            let record = self.locks.get(at - 1)?;
            left = left.checked_sub(1)?;
            need(belongs(record))?;
            at = record[link] as usize;
        }
        need(left == 0)
    }

    /// Whether no two resources have one name, by a small hash table of their numbers.
    fn names_differ(&self) -> bool {
        let mut table = [0_u16; 2 * MOST_RESOURCES];
        let mask = (2 * self.resources.len()).next_power_of_two() - 1;
        for (at, record) in self.resources.iter().enumerate() {
            let length = record[resource::NAME_LENGTH] as usize;
            if length == 0 {
                continue;
            }
            let name = &self.slots[at][..NAME_BYTES];
            let mut place = hash(&name[..length]) & mask;
            while table[place] != 0 {
                let other = usize::from(table[place]) - 1;
                if self.resources[other][resource::NAME_LENGTH] as usize == length && self.slots[other][..NAME_BYTES] == *name {
                    return false;
                }
                place = (place + 1) & mask;
            }
            table[place] = at as u16 + 1;
        }
        true
    }
}

/// A quick hash of a name, eight bytes at a time.
#[inline]
fn hash(name: &[u8]) -> usize {
    const ODD: u64 = 0x9e37_79b9_7f4a_7c15;
    let (eights, rest) = name.as_chunks::<8>();
    let mut last = [0; 8];
    last[..rest.len()].copy_from_slice(rest);
    let mixed = eights
        .iter()
        .chain([&last])
        .fold(name.len() as u64, |sum, eight| (sum.rotate_left(23) ^ u64::from_le_bytes(*eight)).wrapping_mul(ODD));
    (mixed >> 40) as usize
}
