//! What the tables mean: records in use, by number, and queues of record numbers.
//!
//! The types leave out much that soundness must forbid in the tables: a free record has no fields at all, a waiting lock no held mode, and
//! only granted and denied locks can have a completion. That only granted and converting locks have a mark is the calls' to keep. How many
//! locks hold each mode on a resource, which its record counts, follows from where they stand.

use crate::Mode;
use crate::layout::{VALUE_BYTES, Value};
use std::collections::{BTreeMap, VecDeque};

/// The state of a lock manager.
#[derive(Clone, Debug, PartialEq, Eq)]
pub struct State {
    /// How many resource records there are.
    pub most_resources: u32,
    /// How many lock records there are.
    pub most_locks: u32,
    /// The resources in use, by number.
    pub resources: BTreeMap<u32, Resource>,
    /// The locks in use, by number.
    pub locks: BTreeMap<u32, Lock>,
    /// Numbers of the free resources, the next one to be taken first.
    pub free_resources: VecDeque<u32>,
    /// Numbers of the free locks, the next one to be taken first.
    pub free_locks: VecDeque<u32>,
    /// The denied locks.
    pub denied: VecDeque<u32>,
    /// The converting and waiting locks of all resources.
    pub blocked: VecDeque<u32>,
    /// The locks with a completion or a mark that its client hasn't polled.
    pub notices: VecDeque<u32>,
}

/// A resource in use.
#[derive(Clone, Debug, PartialEq, Eq)]
pub struct Resource {
    /// 1 to 64 bytes that no other resource has as its name.
    pub name: Vec<u8>,
    /// The value block.
    pub value: Value,
    /// Whether the value block is valid.
    pub valid: bool,
    /// The grant chain.
    pub granted: VecDeque<u32>,
    /// The convert chain.
    pub converting: VecDeque<u32>,
    /// The wait chain.
    pub waiting: VecDeque<u32>,
}

/// A lock in use.
#[derive(Clone, Debug, PartialEq, Eq)]
pub struct Lock {
    /// Whose it is.
    pub client: u8,
    /// How it stands.
    pub standing: Standing,
    /// The largest mode that it was in the way of since its client polled it; never NL, which nothing is in the way of.
    pub mark: Option<Mode>,
}

/// How a lock stands, and with which modes.
#[derive(Clone, Copy, Debug, PartialEq, Eq)]
#[allow(missing_docs)]
pub enum Standing {
    /// It has its mode; an earlier conversion or request may have a completion unread.
    Granted { resource: u32, held: Mode, unread: Option<Unread> },
    /// It has a mode and asks for another.
    Converting { resource: u32, held: Mode, asked: Mode },
    /// It asks for its first mode.
    Waiting { resource: u32, asked: Mode },
    /// Its request was denied, and its client hasn't been told.
    Denied,
}

/// What the client of a granted lock hasn't been told yet.
#[derive(Clone, Copy, Debug, PartialEq, Eq)]
pub enum Unread {
    /// The blocked request or conversion was granted.
    Granted,
    /// The conversion was denied.
    ConversionDenied,
}

impl Lock {
    /// A lock as a call makes it.
    pub fn new(client: u8, standing: Standing) -> Lock {
        Lock { client, standing, mark: None }
    }

    /// The resource that the lock stands on; a denied one stands on none.
    pub fn resource(&self) -> Option<u32> {
        match self.standing {
            Standing::Granted { resource, .. } | Standing::Converting { resource, .. } | Standing::Waiting { resource, .. } => {
                Some(resource)
            }
            Standing::Denied => None,
        }
    }

    /// The mode it holds; waiting and denied locks hold none, not even NL.
    pub fn held(&self) -> Option<Mode> {
        match self.standing {
            Standing::Granted { held, .. } | Standing::Converting { held, .. } => Some(held),
            Standing::Waiting { .. } | Standing::Denied => None,
        }
    }

    /// The mode it asks for.
    pub fn asked(&self) -> Option<Mode> {
        match self.standing {
            Standing::Converting { asked, .. } | Standing::Waiting { asked, .. } => Some(asked),
            Standing::Granted { .. } | Standing::Denied => None,
        }
    }

    /// Whether it is converting or waiting.
    pub fn blocked(&self) -> bool {
        self.asked().is_some()
    }

    /// The paper's state number.
    pub fn state_number(&self) -> u32 {
        match self.standing {
            Standing::Granted { .. } => 1,
            Standing::Converting { .. } => 2,
            Standing::Waiting { .. } => 3,
            Standing::Denied => 4,
        }
    }

    /// The paper's completion number.
    pub fn completion(&self) -> u32 {
        match self.standing {
            Standing::Granted { unread: Some(Unread::Granted), .. } => 1,
            Standing::Denied => 2,
            Standing::Granted { unread: Some(Unread::ConversionDenied), .. } => 3,
            _ => 0,
        }
    }

    /// Whether it has a completion that its client hasn't polled. A denied lock has.
    pub fn unread(&self) -> bool {
        self.completion() != 0
    }

    /// The mark's number, 0 for none.
    pub fn mark_number(&self) -> u32 {
        self.mark.map_or(0, Mode::number)
    }

    /// Whether it belongs on the notice chain: it has a completion or a mark.
    pub fn noticed(&self) -> bool {
        self.unread() || self.mark.is_some()
    }
}

impl Resource {
    /// A resource as the first request for its name makes it.
    pub fn new(name: &[u8]) -> Resource {
        let empty = VecDeque::new;
        Resource { name: name.to_vec(), value: [0; VALUE_BYTES], valid: true, granted: empty(), converting: empty(), waiting: empty() }
    }

    /// Its locks in grant, convert, wait order.
    pub fn locks(&self) -> impl Iterator<Item = u32> + '_ {
        self.holders().chain(self.waiting.iter().copied())
    }

    /// Its locks that hold a mode, granted and then converting.
    pub fn holders(&self) -> impl Iterator<Item = u32> + '_ {
        self.granted.iter().chain(&self.converting).copied()
    }
}

impl State {
    /// Started tables: all records free, chained upward.
    pub(crate) fn started(most_resources: u32, most_locks: u32) -> State {
        State {
            most_resources,
            most_locks,
            resources: BTreeMap::new(),
            locks: BTreeMap::new(),
            free_resources: (1..=most_resources).collect(),
            free_locks: (1..=most_locks).collect(),
            denied: VecDeque::new(),
            blocked: VecDeque::new(),
            notices: VecDeque::new(),
        }
    }

    /// The number of the resource of a name.
    pub fn named(&self, name: &[u8]) -> Option<u32> {
        self.resources.iter().find(|(_, resource)| resource.name == name).map(|(number, _)| *number)
    }

    /// How many locks, granted and converting ones, hold each mode on a resource: NL to EX.
    pub fn counts(&self, resource: u32) -> [u32; 6] {
        let held: Vec<Mode> = self.resources[&resource].holders().filter_map(|lock| self.locks[&lock].held()).collect();
        Mode::ALL.map(|mode| held.iter().filter(|other| **other == mode).count() as u32)
    }

    /// Whether a mode is compatible with every mode held on a resource by a lock other than the given one (0: other than none).
    pub fn fits(&self, resource: u32, mode: Mode, beside: u32) -> bool {
        let others = self.resources[&resource].holders().filter(|lock| *lock != beside);
        others.filter_map(|lock| self.locks[&lock].held()).all(|held| mode.compatible(held))
    }

    /// The locks on a blocked lock's resource, other than itself, whose held mode is incompatible with its asked mode: in grant, then convert
    /// chain order.
    pub(crate) fn in_the_way_of(&self, number: u32) -> impl Iterator<Item = u32> + '_ {
        let lock = &self.locks[&number];
        let resource = lock.resource().expect("a blocked lock stands on a resource");
        let asked = lock.asked().expect("a blocked lock asks for a mode");
        let others = self.resources[&resource].holders().filter(move |other| *other != number);
        others.filter(move |other| self.locks[other].held().is_some_and(|held| !held.compatible(asked)))
    }

    /// The convert head, if it is grantable.
    pub(crate) fn grantable_convert_head(&self, resource: u32) -> Option<u32> {
        let head = *self.resources[&resource].converting.front()?;
        let asked = self.locks[&head].asked()?;
        self.fits(resource, asked, head).then_some(head)
    }

    /// The wait head, if it is grantable.
    pub(crate) fn grantable_wait_head(&self, resource: u32) -> Option<u32> {
        let queues = &self.resources[&resource];
        let head = *queues.waiting.front()?;
        let asked = self.locks[&head].asked()?;
        (queues.converting.is_empty() && self.fits(resource, asked, 0)).then_some(head)
    }
}
