//! The chains of sound tables, and what the calls do with them.

use crate::held::{Held, recount};
use crate::layout::{Head, LockRecord, Records, ResourceRecord, completion, head, held_mode, lock, noticed, resource, state};
use crate::modes::compatible;
use crate::{Refused, sound};

/// The words of sound tables, cut into records.
pub struct Queues<'a> {
    pub head: &'a mut Head,
    pub resources: &'a mut [ResourceRecord],
    pub locks: &'a mut [LockRecord],
}

/// The ends of the two chains that a sweep adds to, once they were looked for.
#[derive(Default)]
struct Ends {
    granted: Option<u32>,
    notices: Option<u32>,
}

/// Puts a lock at the end of a chain. The end is looked for once, and known from then on. The lock's own link there is zero.
fn join(end: &mut Option<u32>, first: &mut u32, locks: &mut [LockRecord], link: usize, number: u32) {
    match end.unwrap_or_else(|| last(*first, locks, link)) {
        0 => *first = number,
        end => locks[end as usize - 1][link] = number,
    }
    *end = Some(number);
}

/// Puts a lock at the end of a chain.
fn append(first: &mut u32, locks: &mut [LockRecord], link: usize, number: u32) {
    join(&mut None, first, locks, link, number);
}

/// The last lock of a chain, or 0.
fn last(first: u32, locks: &[LockRecord], link: usize) -> u32 {
    let (mut end, mut next) = (first, first);
    while next != 0 {
        end = next;
        next = locks[next as usize - 1][link];
    }
    end
}

/// Takes a lock out of a chain that it is on.
fn remove(first: &mut u32, locks: &mut [LockRecord], link: usize, number: u32) {
    let after = std::mem::take(&mut locks[number as usize - 1][link]);
    if *first == number {
        *first = after;
        return;
    }
    let mut at = *first;
    loop {
        let next = &mut locks[at as usize - 1][link];
        if *next == number {
            *next = after;
            return;
        }
        at = *next;
    }
}

/// Takes all locks of a client out of a chain in one walk.
fn remove_all(first: &mut u32, locks: &mut [LockRecord], link: usize, client: u32) {
    let mut end = None;
    let mut at = std::mem::take(first);
    while at != 0 {
        let record = &mut locks[at as usize - 1];
        let next = std::mem::take(&mut record[link]);
        if record[lock::CLIENT] != client {
            join(&mut end, first, locks, link, at);
        }
        at = next;
    }
}

impl<'a> Queues<'a> {
    /// The queues of lent tables, if these are sound.
    pub fn open(words: &'a mut [u32], slots: &[u8]) -> Result<Queues<'a>, Refused> {
        if sound(words, slots) { Ok(Queues::cut(words)) } else { Err(1) }
    }

    /// The queues of words that are known to be sound.
    pub fn cut(words: &'a mut [u32]) -> Queues<'a> {
        let (head, records) = words.split_first_chunk_mut::<{ head::WIDTH }>().expect("sound words");
        let (resources, locks) = records.split_at_mut(resource::WIDTH * head[head::RESOURCES] as usize);
        Queues { head, resources: resources.as_chunks_mut().0, locks: locks.as_chunks_mut().0 }
    }

    #[inline]
    pub fn lock(&mut self, number: u32) -> &mut LockRecord {
        &mut self.locks[number as usize - 1]
    }

    #[inline]
    pub fn resource(&mut self, number: u32) -> &mut ResourceRecord {
        &mut self.resources[number as usize - 1]
    }

    /// Whether a mode is compatible with every mode held on a resource, but for a lock's own if it holds one.
    #[inline]
    pub fn fits(&self, number: u32, mode: u32, own: Option<u32>) -> bool {
        let held = Held::counted(&self.resources[number as usize - 1]);
        own.map_or(held, |own| held.but(own)).admit(mode)
    }

    pub fn append_home(&mut self, number: u32, chain: usize, k: u32) {
        append(&mut self.resources[number as usize - 1][chain], self.locks, lock::HOME, k);
    }

    pub fn remove_home(&mut self, number: u32, chain: usize, k: u32) {
        remove(&mut self.resources[number as usize - 1][chain], self.locks, lock::HOME, k);
    }

    /// Puts a lock at the end of the convert or wait chain of a resource, where it is blocked. If its asked mode fits, nobody is in its way.
    pub fn queue(&mut self, number: u32, chain: usize, k: u32, fits: bool) {
        self.append_home(number, chain, k);
        append(&mut self.head[head::BLOCKED], self.locks, lock::BLOCKED, k);
        if !fits {
            self.mark_holders(number, k);
        }
    }

    pub fn remove_blocked(&mut self, k: u32) {
        remove(&mut self.head[head::BLOCKED], self.locks, lock::BLOCKED, k);
    }

    pub fn append_notice(&mut self, k: u32) {
        append(&mut self.head[head::NOTICE], self.locks, lock::NOTICE, k);
    }

    /// Marks those on a blocked lock's resource whose held mode isn't compatible with its asked one. The notice chain's end is looked for once.
    fn mark_holders(&mut self, number: u32, k: u32) {
        let mode = self.lock(k)[lock::ASKED];
        let mut end = None;
        for chain in [resource::GRANT, resource::CONVERT] {
            let mut at = self.resources[number as usize - 1][chain];
            while at != 0 {
                let record = &mut self.locks[at as usize - 1];
                let next = record[lock::HOME];
                if at != k && !compatible(mode, record[lock::HELD]) {
                    let joins = !noticed(record);
                    record[lock::MARK] = record[lock::MARK].max(mode);
                    if joins {
                        join(&mut end, &mut self.head[head::NOTICE], self.locks, lock::NOTICE, at);
                    }
                }
                at = next;
            }
        }
    }

    pub fn remove_notice(&mut self, k: u32) {
        remove(&mut self.head[head::NOTICE], self.locks, lock::NOTICE, k);
    }

    pub fn append_denied(&mut self, k: u32) {
        append(&mut self.head[head::DENIED], self.locks, lock::HOME, k);
    }

    pub fn remove_denied(&mut self, k: u32) {
        remove(&mut self.head[head::DENIED], self.locks, lock::HOME, k);
    }

    /// Takes the first free lock; there is one.
    pub fn take_lock(&mut self) -> u32 {
        let number = self.head[head::FREE_LOCK];
        self.head[head::FREE_LOCK] = self.locks[number as usize - 1][lock::HOME];
        number
    }

    /// Puts a lock that is off all chains back to the front of the free chain.
    pub fn free_lock(&mut self, number: u32) {
        let mut record = [0; lock::WIDTH];
        record[lock::HOME] = self.head[head::FREE_LOCK];
        *self.lock(number) = record;
        self.head[head::FREE_LOCK] = number;
    }

    /// Takes the first free resource; there is one.
    pub fn take_resource(&mut self) -> u32 {
        let number = self.head[head::FREE_RESOURCE];
        self.head[head::FREE_RESOURCE] = self.resources[number as usize - 1][resource::NEXT];
        number
    }

    /// Puts a resource back to the front of the free chain. Its slot is the caller's to clear.
    pub fn free_resource(&mut self, number: u32) {
        let mut record = [0; resource::WIDTH];
        record[resource::NEXT] = self.head[head::FREE_RESOURCE];
        *self.resource(number) = record;
        self.head[head::FREE_RESOURCE] = number;
    }

    /// Whether a resource has no lock.
    pub fn is_empty(&self, number: u32) -> bool {
        self.resources[number as usize - 1][resource::GRANT..=resource::WAIT] == [0; 3]
    }

    /// A converting lock goes back to the grant chain with the mode it holds.
    pub fn unconvert(&mut self, k: u32) {
        let number = self.lock(k)[lock::RESOURCE];
        self.remove_home(number, resource::CONVERT, k);
        self.remove_blocked(k);
        self.append_home(number, resource::GRANT, k);
        let record = self.lock(k);
        record[lock::STATE] = state::GRANTED;
        record[lock::ASKED] = 0;
    }

    /// Takes all locks of a client off the chains of a resource.
    pub fn remove_client_from(&mut self, number: u32, client: u32) {
        for chain in resource::GRANT..=resource::WAIT {
            let first = &mut self.resources[number as usize - 1][chain];
            remove_all(first, self.locks, lock::HOME, client);
        }
    }

    /// Takes all locks of a client off the denied, blocked and notice chains.
    pub fn remove_client_aside(&mut self, client: u32) {
        for (first, link) in [(head::DENIED, lock::HOME), (head::BLOCKED, lock::BLOCKED), (head::NOTICE, lock::NOTICE)] {
            remove_all(&mut self.head[first], self.locks, link, client);
        }
    }

    /// Grants convert heads while they are grantable, then wait heads.
    pub fn sweep(&mut self, number: u32) {
        let mut ends = Ends::default();
        loop {
            let record = self.resource(number);
            let chain = if record[resource::CONVERT] != 0 { resource::CONVERT } else { resource::WAIT };
            let k = record[chain];
            if k == 0 {
                return;
            }
            let head = self.lock(k);
            let (held, asked) = (held_mode(head), head[lock::ASKED]);
            if !self.fits(number, asked, held) {
                return;
            }
            self.grant_head(number, chain, k, &mut ends);
        }
    }

    /// Grants the head of a chain of a resource. With a mark it stands on the notice chain already.
    fn grant_head(&mut self, number: u32, chain: usize, k: u32, ends: &mut Ends) {
        self.remove_blocked(k);
        let record = self.lock(k);
        let joins = !noticed(record);
        let next = std::mem::take(&mut record[lock::HOME]);
        let (held, asked) = (held_mode(record), std::mem::take(&mut record[lock::ASKED]));
        record[lock::HELD] = asked;
        record[lock::STATE] = state::GRANTED;
        record[lock::COMPLETION] = completion::GRANTED;
        recount(self.resource(number), held, Some(asked));
        self.resource(number)[chain] = next;
        join(&mut ends.granted, &mut self.resources[number as usize - 1][resource::GRANT], self.locks, lock::HOME, k);
        if joins {
            join(&mut ends.notices, &mut self.head[head::NOTICE], self.locks, lock::NOTICE, k);
        }
    }
}

/// The resource of a name, or 0.
pub fn find(records: &Records, name: &[u8]) -> u32 {
    let length = name.len() as u32;
    let mut entries = records.resources.iter().zip(records.slots);
    let at = entries.position(|(record, slot)| record[resource::NAME_LENGTH] == length && slot[..name.len()] == *name);
    at.map_or(0, |at| at as u32 + 1)
}
