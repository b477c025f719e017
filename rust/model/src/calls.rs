//! The calls, on a state. A state is sound by its nature, so refusal 1 isn't here but in [`crate::entries`].
//!
//! Every call first looks for the first refusal that fits, in the paper's order, and only then changes anything.

use crate::layout::{self, NAME_BYTES, Value, sizes_allowed};
use crate::{Lock, Mode, Refused, Resource, Standing, State, Unread};
use std::collections::{BTreeSet, VecDeque};

const STORE: u32 = 1;
const INVALIDATE: u32 = 2;
const DONT_QUEUE: u32 = 4;

/// What request and convert answer.
#[derive(Clone, Copy, Debug, PartialEq, Eq)]
pub enum Answer {
    /// 1: granted.
    Granted,
    /// 2: it waits.
    Waits,
}

impl Answer {
    /// The paper's number.
    pub fn number(self) -> u32 {
        match self {
            Answer::Granted => 1,
            Answer::Waits => 2,
        }
    }
}

/// What poll answers: a completion, a lock and its mark, zeros if there is no notice. A mark alone has completion 0.
#[derive(Clone, Copy, Debug, Default, PartialEq, Eq)]
#[allow(missing_docs)]
pub struct Polled {
    pub completion: u32,
    pub lock: u32,
    pub mark: u32,
}

/// What purge answers: how many locks it freed, how many of them were blocked, and how many had a completion unread. A mark alone is none.
#[derive(Clone, Copy, Debug, Default, PartialEq, Eq)]
#[allow(missing_docs)]
pub struct Purged {
    pub locks: u32,
    pub blocked: u32,
    pub unread: u32,
}

/// A lock as list shows it.
#[derive(Clone, Copy, Debug, PartialEq, Eq)]
#[allow(missing_docs)]
pub struct Entry {
    pub number: u32,
    pub client: u32,
    pub state: u32,
    pub held: u32,
    pub asked: u32,
}

/// Refuses unless something is right.
fn demand(right: bool, refused: Refused) -> Result<(), Refused> {
    if right { Ok(()) } else { Err(refused) }
}

fn client_of(client: u32) -> Result<u8, Refused> {
    u8::try_from(client).ok().filter(|client| *client != 0).ok_or(Refused::CLIENT)
}

fn mode_of(mode: u32) -> Result<Mode, Refused> {
    Mode::from_number(mode).ok_or(Refused::MODE)
}

/// Flags are a set of bits; those outside the allowed ones are refused, and so are 1 and 2 together.
fn flags_of(flags: u32, allowed: u32) -> Result<(), Refused> {
    let both = flags & STORE != 0 && flags & INVALIDATE != 0;
    demand(flags & !allowed == 0 && !both, Refused::FLAGS)
}

pub(crate) fn name_of(name: &[u8]) -> Result<(), Refused> {
    demand((1..=NAME_BYTES).contains(&name.len()), Refused::NAME)
}

/// What is to be done with the value block where the flags act.
#[derive(Clone, Copy)]
enum ValueAct {
    Leave,
    Store(Value),
    Invalidate,
}

fn value_act(flags: u32, value: &[u8]) -> Result<ValueAct, Refused> {
    if flags & STORE != 0 {
        value.try_into().map(ValueAct::Store).map_err(|_| Refused::VALUE)
    } else if flags & INVALIDATE != 0 {
        Ok(ValueAct::Invalidate)
    } else {
        Ok(ValueAct::Leave)
    }
}

fn drop_number(chain: &mut VecDeque<u32>, number: u32) {
    chain.retain(|other| *other != number);
}

impl State {
    /// Fresh tables of so many words, if R, L and the lengths are right.
    pub fn start(resources: u32, locks: u32, words_len: usize, slots_len: usize) -> Result<State, Refused> {
        demand(sizes_allowed(resources, locks), Refused::SIZES)?;
        let lengths = words_len == layout::words(resources, locks) && slots_len == layout::slots(resources);
        demand(lengths, Refused::SIZES)?;
        Ok(State::started(resources, locks))
    }

    /// A new lock on a name: whether it is granted, and its number.
    pub fn request(&mut self, client: u32, mode: u32, flags: u32, name: &[u8]) -> Result<(Answer, u32), Refused> {
        let client = client_of(client)?;
        let mode = mode_of(mode)?;
        flags_of(flags, DONT_QUEUE)?;
        name_of(name)?;
        let known = self.named(name);
        demand(known.is_some() || !self.free_resources.is_empty(), Refused::NO_RESOURCE)?;
        demand(!self.free_locks.is_empty(), Refused::NO_LOCK)?;
        let granted = known.is_none_or(|resource| self.nobody_ahead(resource, mode) && self.fits(resource, mode, 0));
        demand(granted || flags & DONT_QUEUE == 0, Refused::BLOCKS)?;

        let resource = known.unwrap_or_else(|| self.take_resource(name));
        let number = self.free_locks.pop_front().expect("a free lock, as seen above");
        let standing =
            if granted { Standing::Granted { resource, held: mode, unread: None } } else { Standing::Waiting { resource, asked: mode } };
        self.locks.insert(number, Lock::new(client, standing));
        if granted {
            self.at(resource).granted.push_back(number);
            Ok((Answer::Granted, number))
        } else {
            self.at(resource).waiting.push_back(number);
            self.blocked.push_back(number);
            self.mark_those_in_the_way_of(number);
            Ok((Answer::Waits, number))
        }
    }

    /// A granted lock to another mode.
    pub fn convert(&mut self, client: u32, lock: u32, mode: u32, flags: u32, value: &[u8]) -> Result<Answer, Refused> {
        let client = client_of(client)?;
        let mode = mode_of(mode)?;
        flags_of(flags, STORE | INVALIDATE | DONT_QUEUE)?;
        let act = value_act(flags, value)?;
        let (resource, held) = self.granted_lock(client, lock)?;
        let in_place = held.down_to(mode) || (self.resources[&resource].converting.is_empty() && self.fits(resource, mode, lock));
        demand(in_place || flags & DONT_QUEUE == 0, Refused::BLOCKS)?;

        if in_place {
            self.stand(lock, Standing::Granted { resource, held: mode, unread: None });
            if held.writes_value() && mode < held {
                self.act_on_value(resource, act);
            }
            self.sweep(resource);
            Ok(Answer::Granted)
        } else {
            self.stand(lock, Standing::Converting { resource, held, asked: mode });
            let queues = self.at(resource);
            drop_number(&mut queues.granted, lock);
            queues.converting.push_back(lock);
            self.blocked.push_back(lock);
            self.mark_those_in_the_way_of(lock);
            Ok(Answer::Waits)
        }
    }

    /// A granted lock is freed.
    pub fn release(&mut self, client: u32, lock: u32, flags: u32, value: &[u8]) -> Result<(), Refused> {
        let client = client_of(client)?;
        flags_of(flags, STORE | INVALIDATE)?;
        let act = value_act(flags, value)?;
        let (resource, held) = self.granted_lock(client, lock)?;

        if held.writes_value() {
            self.act_on_value(resource, act);
        }
        self.free_lock(lock);
        self.free_or_sweep(resource);
        Ok(())
    }

    /// A blocked lock waits no longer: 1 if it was converting, 2 if it was waiting.
    pub fn cancel(&mut self, client: u32, lock: u32) -> Result<u32, Refused> {
        let client = client_of(client)?;
        let found = self.own(client, lock)?;
        demand(found.completion() == 0, Refused::UNREAD)?;
        match found.standing {
            Standing::Converting { resource, .. } => {
                self.unconvert(lock, None);
                self.sweep(resource);
                Ok(1)
            }
            Standing::Waiting { resource, .. } => {
                self.free_lock(lock);
                self.sweep(resource);
                Ok(2)
            }
            Standing::Granted { .. } | Standing::Denied => Err(Refused::STATE),
        }
    }

    /// All locks of a client are freed. They are counted as they stood before the first of them was.
    pub fn purge(&mut self, client: u32) -> Result<Purged, Refused> {
        let client = client_of(client)?;
        let its: Vec<u32> = self.locks.iter().filter(|(_, lock)| lock.client == client).map(|(n, _)| *n).collect();
        let how_many = |is: fn(&Lock) -> bool| its.iter().filter(|lock| is(&self.locks[lock])).count() as u32;
        let purged = Purged { locks: its.len() as u32, blocked: how_many(Lock::blocked), unread: how_many(Lock::unread) };
        let stood_on: BTreeSet<u32> = its.iter().filter_map(|lock| self.locks[lock].resource()).collect();
        for lock in &its {
            self.invalidate_if_writer(*lock);
            self.free_lock(*lock);
        }
        for resource in stood_on {
            self.free_or_sweep(resource);
        }
        Ok(purged)
    }

    /// If there is a deadlock, the first lock of the blocked chain that is on one is denied: its number, or 0.
    pub fn break_deadlock(&mut self) -> u32 {
        let Some(lock) = self.first_deadlocked() else { return 0 };
        let resource = self.locks[&lock].resource().expect("a blocked lock stands on a resource");
        if self.locks[&lock].held().is_some() {
            self.unconvert(lock, Some(Unread::ConversionDenied));
        } else {
            drop_number(&mut self.at(resource).waiting, lock);
            drop_number(&mut self.blocked, lock);
            self.stand(lock, Standing::Denied);
            self.denied.push_back(lock);
        }
        self.notify(lock);
        self.sweep(resource);
        lock
    }

    /// Takes the client's first notice.
    pub fn poll(&mut self, client: u32) -> Result<Polled, Refused> {
        let client = client_of(client)?;
        let Some(lock) = self.notices.iter().copied().find(|lock| self.locks[lock].client == client) else {
            return Ok(Polled::default());
        };
        let found = self.locks.get_mut(&lock).expect("a lock in use");
        let polled = Polled { completion: found.completion(), lock, mark: found.mark_number() };
        if found.standing == Standing::Denied {
            self.free_lock(lock);
            return Ok(polled);
        }
        found.mark = None;
        if let Standing::Granted { unread, .. } = &mut found.standing {
            *unread = None;
        }
        drop_number(&mut self.notices, lock);
        Ok(polled)
    }

    /// The value block of a lock's resource, and whether it is valid.
    pub fn read(&self, client: u32, lock: u32) -> Result<(Value, bool), Refused> {
        let resource = self.held_resource(client, lock)?;
        Ok((resource.value, resource.valid))
    }

    /// All locks on a lock's resource.
    pub fn list(&self, client: u32, lock: u32) -> Result<Vec<Entry>, Refused> {
        let resource = self.held_resource(client, lock)?;
        Ok(resource.locks().map(|number| self.entry(number)).collect())
    }

    /// The client that holds EX on a name, or 0.
    pub fn holder(&self, name: &[u8]) -> Result<u32, Refused> {
        name_of(name)?;
        let resource = self.named(name).map(|number| &self.resources[&number]);
        let holder =
            resource.and_then(|resource| resource.holders().map(|lock| &self.locks[&lock]).find(|lock| lock.held() == Some(Mode::Ex)));
        Ok(holder.map_or(0, |lock| u32::from(lock.client)))
    }

    fn entry(&self, number: u32) -> Entry {
        let lock = &self.locks[&number];
        Entry {
            number,
            client: u32::from(lock.client),
            state: lock.state_number(),
            held: lock.held().map_or(0, Mode::number),
            asked: lock.asked().map_or(0, Mode::number),
        }
    }

    /// A client's lock by its number.
    fn own(&self, client: u8, lock: u32) -> Result<&Lock, Refused> {
        self.locks.get(&lock).filter(|found| found.client == client).ok_or(Refused::LOCK)
    }

    /// The resource and mode of a client's granted lock that has no completion unread.
    fn granted_lock(&self, client: u8, lock: u32) -> Result<(u32, Mode), Refused> {
        let found = self.own(client, lock)?;
        demand(found.completion() == 0, Refused::UNREAD)?;
        match found.standing {
            Standing::Granted { resource, held, .. } => Ok((resource, held)),
            _ => Err(Refused::STATE),
        }
    }

    /// The resource of a client's granted or converting lock, for read and list.
    fn held_resource(&self, client: u32, lock: u32) -> Result<&Resource, Refused> {
        let client = client_of(client)?;
        let found = self.own(client, lock)?;
        match found.standing {
            Standing::Granted { resource, .. } | Standing::Converting { resource, .. } => Ok(&self.resources[&resource]),
            Standing::Waiting { .. } | Standing::Denied => Err(Refused::STATE),
        }
    }

    /// Whether a new request has nobody to queue behind. NL holds nobody up, so it doesn't queue behind those that wait.
    fn nobody_ahead(&self, resource: u32, mode: Mode) -> bool {
        let queues = &self.resources[&resource];
        queues.converting.is_empty() && (queues.waiting.is_empty() || mode == Mode::Nl)
    }

    fn at(&mut self, resource: u32) -> &mut Resource {
        self.resources.get_mut(&resource).expect("a resource in use")
    }

    fn stand(&mut self, lock: u32, standing: Standing) {
        self.locks.get_mut(&lock).expect("a lock in use").standing = standing;
    }

    /// A new name takes a resource: value zeros, valid.
    fn take_resource(&mut self, name: &[u8]) -> u32 {
        let number = self.free_resources.pop_front().expect("a free resource, as seen before");
        self.resources.insert(number, Resource::new(name));
        number
    }

    fn act_on_value(&mut self, resource: u32, act: ValueAct) {
        let resource = self.at(resource);
        match act {
            ValueAct::Leave => {}
            ValueAct::Store(value) => {
                resource.value = value;
                resource.valid = true;
            }
            ValueAct::Invalidate => resource.valid = false,
        }
    }

    /// A purged lock that held PW or EX leaves its resource's value not valid.
    fn invalidate_if_writer(&mut self, lock: u32) {
        let found = &self.locks[&lock];
        if let (Some(resource), true) = (found.resource(), found.held().is_some_and(Mode::writes_value)) {
            self.at(resource).valid = false;
        }
    }

    /// A lock leaves every chain it is on and becomes free.
    fn free_lock(&mut self, lock: u32) {
        if let Some(resource) = self.locks[&lock].resource() {
            let queues = self.at(resource);
            drop_number(&mut queues.granted, lock);
            drop_number(&mut queues.converting, lock);
            drop_number(&mut queues.waiting, lock);
        }
        drop_number(&mut self.denied, lock);
        drop_number(&mut self.blocked, lock);
        drop_number(&mut self.notices, lock);
        self.locks.remove(&lock);
        self.free_locks.push_front(lock);
    }

    /// A converting lock goes back to the end of the grant chain with the mode it has, and what its client is to be told.
    fn unconvert(&mut self, lock: u32, unread: Option<Unread>) {
        let Standing::Converting { resource, held, .. } = self.locks[&lock].standing else { unreachable!("a converting lock") };
        self.stand(lock, Standing::Granted { resource, held, unread });
        let queues = self.at(resource);
        drop_number(&mut queues.converting, lock);
        queues.granted.push_back(lock);
        drop_number(&mut self.blocked, lock);
    }

    /// A lock has something to tell its client. If it had before, it keeps its place.
    fn notify(&mut self, lock: u32) {
        if !self.notices.contains(&lock) {
            self.notices.push_back(lock);
        }
    }

    /// Each lock that a queued one waits for is marked with the mode asked for, unless it has a larger mark.
    fn mark_those_in_the_way_of(&mut self, lock: u32) {
        let asked = self.locks[&lock].asked();
        for other in self.in_the_way_of(lock).collect::<Vec<u32>>() {
            let marked = self.locks.get_mut(&other).expect("a lock in use");
            marked.mark = marked.mark.max(asked);
            self.notify(other);
        }
    }

    /// A resource left empty is freed, another swept.
    fn free_or_sweep(&mut self, resource: u32) {
        if self.resources[&resource].locks().next().is_none() {
            self.resources.remove(&resource);
            self.free_resources.push_front(resource);
        } else {
            self.sweep(resource);
        }
    }

    /// While the convert head is grantable, grants it; then while the wait head is, grants that.
    pub fn sweep(&mut self, resource: u32) {
        while let Some(lock) = self.grantable_convert_head(resource) {
            self.at(resource).converting.pop_front();
            self.grant(resource, lock);
        }
        while let Some(lock) = self.grantable_wait_head(resource) {
            self.at(resource).waiting.pop_front();
            self.grant(resource, lock);
        }
    }

    /// What a sweep does with a lock that it took off its chain.
    fn grant(&mut self, resource: u32, lock: u32) {
        let asked = self.locks[&lock].asked().expect("a blocked lock asks for a mode");
        self.stand(lock, Standing::Granted { resource, held: asked, unread: Some(Unread::Granted) });
        self.at(resource).granted.push_back(lock);
        drop_number(&mut self.blocked, lock);
        self.notify(lock);
    }
}
