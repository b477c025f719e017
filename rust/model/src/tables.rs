//! States as words and slots, and back.

use crate::layout::{self, NAME_BYTES, SLOT_BYTES, header, lock, lock_at, resource, resource_at, sizes_allowed, slot_at};
use crate::{Lock, Mode, Resource, Standing, State, Unread};
use std::collections::{BTreeMap, BTreeSet, VecDeque};

/// What is wrong with tables that aren't sound: the first flaw found.
#[derive(Clone, Copy, Debug, PartialEq, Eq, PartialOrd, Ord, Hash)]
pub enum Flaw {
    /// There are no words 0 and 1, or R or L is out of its range.
    Sizes,
    /// The words or slots aren't as many as R and L say.
    Lengths,
    /// A word given as zero isn't.
    NotZero,
    /// An index is neither 0 nor a record's number.
    Index,
    /// A chain doesn't end.
    Endless,
    /// Something is left in the record or slot of a resource on the free chain.
    FreeResource,
    /// A resource in use has a next free one.
    UsedNext,
    /// A resource that isn't on the free chain has a name of no or more than 64 bytes.
    NameLength,
    /// There is something after the name in its slot.
    AfterName,
    /// The validity is neither 0 nor 1.
    Validity,
    /// A resource in use has no lock.
    NoLocks,
    /// Two resources have one name.
    SameName,
    /// A lock stands on two home chains.
    TwoHomes,
    /// A lock stands on no home chain.
    NoHome,
    /// A lock's state isn't that of its home chain.
    State,
    /// A lock's resource isn't that of its home chain.
    OtherResource,
    /// Something is left in the record of a free lock.
    FreeLock,
    /// A client isn't 1 to 255.
    Client,
    /// A mode is above 5.
    Mode,
    /// A waiting or denied lock has a held mode.
    Held,
    /// A granted or denied lock has an asked mode.
    Asked,
    /// A completion isn't one that the lock's state can have.
    Completion,
    /// A mark is above 5, or a waiting or denied lock has one.
    Mark,
    /// The blocked chain hasn't exactly the converting and waiting locks.
    Blocked,
    /// The notice chain hasn't exactly the locks with a completion or a mark.
    Notices,
    /// A lock off the blocked chain has a link there.
    BlockedLink,
    /// A lock off the notice chain has a link there.
    NoticeLink,
    /// A resource in use counts more or fewer locks that hold a mode than there are.
    Count,
    /// Two held modes on a resource aren't compatible.
    Clash,
    /// A convert head is grantable.
    ConvertHead,
    /// A wait head is grantable.
    WaitHead,
}

impl Flaw {
    /// All flaws, in the order in which they are looked for.
    pub const ALL: [Flaw; 31] = [
        Flaw::Sizes,
        Flaw::Lengths,
        Flaw::NotZero,
        Flaw::Index,
        Flaw::Endless,
        Flaw::FreeResource,
        Flaw::UsedNext,
        Flaw::NameLength,
        Flaw::AfterName,
        Flaw::Validity,
        Flaw::NoLocks,
        Flaw::SameName,
        Flaw::TwoHomes,
        Flaw::NoHome,
        Flaw::State,
        Flaw::OtherResource,
        Flaw::FreeLock,
        Flaw::Client,
        Flaw::Mode,
        Flaw::Held,
        Flaw::Asked,
        Flaw::Completion,
        Flaw::Mark,
        Flaw::Blocked,
        Flaw::Notices,
        Flaw::BlockedLink,
        Flaw::NoticeLink,
        Flaw::Count,
        Flaw::Clash,
        Flaw::ConvertHead,
        Flaw::WaitHead,
    ];
}

impl State {
    /// Every word and slot that the papers prescribe for this state.
    pub fn to_tables(&self) -> (Vec<u32>, Vec<u8>) {
        let mut writer = Writer {
            words: vec![0; layout::words(self.most_resources, self.most_locks)],
            slots: vec![0; layout::slots(self.most_resources)],
            resources: self.most_resources,
        };
        writer.words[header::RESOURCES] = self.most_resources;
        writer.words[header::LOCKS] = self.most_locks;
        writer.chain(header::FREE_RESOURCE, |number| resource_at(number, resource::NEXT), &self.free_resources);
        writer.locks_chain(header::FREE_LOCK, lock::HOME, &self.free_locks);
        writer.locks_chain(header::DENIED, lock::HOME, &self.denied);
        writer.locks_chain(header::BLOCKED, lock::BLOCKED, &self.blocked);
        writer.locks_chain(header::NOTICE, lock::NOTICE, &self.notices);
        self.resources.iter().for_each(|(number, resource)| writer.resource(*number, resource, self.counts(*number)));
        self.locks.iter().for_each(|(number, lock)| writer.lock(*number, lock));
        (writer.words, writer.slots)
    }

    /// The state that tables have, if they are sound.
    pub fn from_tables(words: &[u32], slots: &[u8]) -> Option<State> {
        State::read_tables(words, slots).ok()
    }

    /// The state that tables have, or the first flaw found in them.
    pub fn read_tables(words: &[u32], slots: &[u8]) -> Result<State, Flaw> {
        let reader = Reader::new(words, slots)?;
        reader.fixed_words()?;
        let state = reader.chains()?;
        let state = reader.resources(state)?;
        let state = reader.locks(state)?;
        reader.side_chains(&state)?;
        reader.true_counts(&state)?;
        modes_agree(&state)?;
        Ok(state)
    }
}

/// Puts records and chains into words and slots that are zero before.
struct Writer {
    words: Vec<u32>,
    slots: Vec<u8>,
    resources: u32,
}

impl Writer {
    /// A chain of numbers: the head at one word, then each link at the word that belongs to the number before.
    fn chain(&mut self, head: usize, link: impl Fn(u32) -> usize, numbers: &VecDeque<u32>) {
        let mut at = head;
        for number in numbers {
            self.words[at] = *number;
            at = link(*number);
        }
    }

    fn locks_chain(&mut self, head: usize, link: usize, numbers: &VecDeque<u32>) {
        let resources = self.resources;
        self.chain(head, |number| lock_at(resources, number, link), numbers);
    }

    fn resource(&mut self, number: u32, resource: &Resource, counts: [u32; 6]) {
        self.locks_chain(resource_at(number, resource::GRANT), lock::HOME, &resource.granted);
        self.locks_chain(resource_at(number, resource::CONVERT), lock::HOME, &resource.converting);
        self.locks_chain(resource_at(number, resource::WAIT), lock::HOME, &resource.waiting);
        self.words[resource_at(number, resource::NAME_LENGTH)] = resource.name.len() as u32;
        self.words[resource_at(number, resource::VALIDITY)] = u32::from(resource.valid);
        resource::COUNTS.into_iter().zip(counts).for_each(|(field, count)| self.words[resource_at(number, field)] = count);
        let slot = &mut self.slots[slot_at(number, 0)..][..SLOT_BYTES];
        slot[..resource.name.len()].copy_from_slice(&resource.name);
        slot[NAME_BYTES..].copy_from_slice(&resource.value);
    }

    fn lock(&mut self, number: u32, lock: &Lock) {
        let fields = [
            (lock::RESOURCE, lock.resource().unwrap_or(0)),
            (lock::CLIENT, u32::from(lock.client)),
            (lock::STATE, lock.state_number()),
            (lock::HELD, lock.held().map_or(0, Mode::number)),
            (lock::ASKED, lock.asked().map_or(0, Mode::number)),
            (lock::COMPLETION, lock.completion()),
            (lock::MARK, lock.mark_number()),
        ];
        fields.into_iter().for_each(|(field, word)| self.words[lock_at(self.resources, number, field)] = word);
    }
}

/// A home chain of locks: which one it is.
#[derive(Clone, Copy, PartialEq, Eq)]
enum Home {
    Free,
    Denied,
    Grant(u32),
    Convert(u32),
    Wait(u32),
}

impl Home {
    /// The state number of the locks there.
    fn state(self) -> u32 {
        match self {
            Home::Free => 0,
            Home::Grant(_) => 1,
            Home::Convert(_) => 2,
            Home::Wait(_) => 3,
            Home::Denied => 4,
        }
    }

    /// The resource of the locks there.
    fn resource(self) -> u32 {
        match self {
            Home::Free | Home::Denied => 0,
            Home::Grant(resource) | Home::Convert(resource) | Home::Wait(resource) => resource,
        }
    }
}

/// Fails with a flaw unless something is right.
fn check(right: bool, flaw: Flaw) -> Result<(), Flaw> {
    if right { Ok(()) } else { Err(flaw) }
}

/// Whether all words of a record are zero but for one, which may be anything.
fn zero_but(record: &[u32], link: usize) -> bool {
    record.iter().enumerate().all(|(at, word)| at == link || *word == 0)
}

/// Reads tables whose sizes and lengths are right.
struct Reader<'a> {
    words: &'a [u32],
    slots: &'a [u8],
    resources: u32,
    locks: u32,
}

impl<'a> Reader<'a> {
    fn new(words: &'a [u32], slots: &'a [u8]) -> Result<Reader<'a>, Flaw> {
        let word = |at: usize| words.get(at).copied().ok_or(Flaw::Sizes);
        let (resources, locks) = (word(header::RESOURCES)?, word(header::LOCKS)?);
        check(sizes_allowed(resources, locks), Flaw::Sizes)?;
        let right = words.len() == layout::words(resources, locks) && slots.len() == layout::slots(resources);
        check(right, Flaw::Lengths)?;
        Ok(Reader { words, slots, resources, locks })
    }

    fn resource_words(&self, number: u32) -> &'a [u32] {
        &self.words[resource_at(number, 0)..][..resource::WIDTH]
    }

    fn lock_words(&self, number: u32) -> &'a [u32] {
        &self.words[lock_at(self.resources, number, 0)..][..lock::WIDTH]
    }

    fn slot(&self, number: u32) -> &'a [u8] {
        &self.slots[slot_at(number, 0)..][..SLOT_BYTES]
    }

    /// The word given as zero, and the ranges of all indices.
    fn fixed_words(&self) -> Result<(), Flaw> {
        let resources: Vec<&[u32]> = (1..=self.resources).map(|number| self.resource_words(number)).collect();
        let locks: Vec<&[u32]> = (1..=self.locks).map(|number| self.lock_words(number)).collect();
        check(self.words[header::ZERO] == 0, Flaw::NotZero)?;
        let a_resource = |index: u32| index <= self.resources;
        let of_locks = |words: &[u32], places: &[usize]| places.iter().all(|at| words[*at] <= self.locks);
        let heads = a_resource(self.words[header::FREE_RESOURCE]) && of_locks(self.words, &header::LOCK_HEADS);
        let in_resource = |record: &&[u32]| a_resource(record[resource::NEXT]) && of_locks(record, &resource::LOCK_HEADS);
        let in_lock = |record: &&[u32]| a_resource(record[lock::RESOURCE]) && of_locks(record, &lock::LINKS);
        check(heads && resources.iter().all(in_resource) && locks.iter().all(in_lock), Flaw::Index)
    }

    /// The numbers on a chain of at most so many records.
    fn walk(&self, head: u32, most: u32, next: impl Fn(u32) -> u32) -> Result<VecDeque<u32>, Flaw> {
        let mut numbers = VecDeque::new();
        let mut at = head;
        while at != 0 {
            check(numbers.len() < most as usize, Flaw::Endless)?;
            numbers.push_back(at);
            at = next(at);
        }
        Ok(numbers)
    }

    fn walk_locks(&self, head: u32, link: usize) -> Result<VecDeque<u32>, Flaw> {
        self.walk(head, self.locks, |number| self.lock_words(number)[link])
    }

    /// A state with the chains that don't belong to a resource, and nothing else yet.
    fn chains(&self) -> Result<State, Flaw> {
        Ok(State {
            most_resources: self.resources,
            most_locks: self.locks,
            resources: BTreeMap::new(),
            locks: BTreeMap::new(),
            free_resources: self.walk(self.words[header::FREE_RESOURCE], self.resources, |r| self.resource_words(r)[resource::NEXT])?,
            free_locks: self.walk_locks(self.words[header::FREE_LOCK], lock::HOME)?,
            denied: self.walk_locks(self.words[header::DENIED], lock::HOME)?,
            blocked: self.walk_locks(self.words[header::BLOCKED], lock::BLOCKED)?,
            notices: self.walk_locks(self.words[header::NOTICE], lock::NOTICE)?,
        })
    }

    /// Adds the resources.
    fn resources(&self, mut state: State) -> Result<State, Flaw> {
        let free: BTreeSet<u32> = state.free_resources.iter().copied().collect();
        let mut names = BTreeSet::new();
        for number in 1..=self.resources {
            if free.contains(&number) {
                let empty = zero_but(self.resource_words(number), resource::NEXT);
                check(empty && self.slot(number).iter().all(|byte| *byte == 0), Flaw::FreeResource)?;
            } else {
                let resource = self.used_resource(number)?;
                check(names.insert(resource.name.clone()), Flaw::SameName)?;
                state.resources.insert(number, resource);
            }
        }
        Ok(state)
    }

    fn used_resource(&self, number: u32) -> Result<Resource, Flaw> {
        let record = self.resource_words(number);
        let (length, valid) = (record[resource::NAME_LENGTH] as usize, record[resource::VALIDITY]);
        check(record[resource::NEXT] == 0, Flaw::UsedNext)?;
        check((1..=NAME_BYTES).contains(&length), Flaw::NameLength)?;
        let (name_area, value) = self.slot(number).split_at(NAME_BYTES);
        let (name, rest) = name_area.split_at(length);
        check(rest.iter().all(|byte| *byte == 0), Flaw::AfterName)?;
        check(valid <= 1, Flaw::Validity)?;
        let resource = Resource {
            name: name.to_vec(),
            value: value.try_into().expect("what a slot has after the name's bytes"),
            valid: valid == 1,
            granted: self.walk_locks(record[resource::GRANT], lock::HOME)?,
            converting: self.walk_locks(record[resource::CONVERT], lock::HOME)?,
            waiting: self.walk_locks(record[resource::WAIT], lock::HOME)?,
        };
        check(resource.locks().next().is_some(), Flaw::NoLocks)?;
        Ok(resource)
    }

    /// Adds the locks, each from its home chain.
    fn locks(&self, mut state: State) -> Result<State, Flaw> {
        let homes = homes(&state)?;
        for number in 1..=self.locks {
            let home = *homes.get(&number).ok_or(Flaw::NoHome)?;
            if let Some(lock) = self.lock(number, home)? {
                state.locks.insert(number, lock);
            }
        }
        Ok(state)
    }

    /// The lock of a record on a home chain, or none if that is the free chain.
    fn lock(&self, number: u32, home: Home) -> Result<Option<Lock>, Flaw> {
        let record = self.lock_words(number);
        let (resource, held, asked) = (record[lock::RESOURCE], record[lock::HELD], record[lock::ASKED]);
        check(record[lock::STATE] == home.state(), Flaw::State)?;
        check(resource == home.resource(), Flaw::OtherResource)?;
        if home == Home::Free {
            check(zero_but(record, lock::HOME), Flaw::FreeLock)?;
            return Ok(None);
        }
        let client = u8::try_from(record[lock::CLIENT]).ok().filter(|client| *client != 0).ok_or(Flaw::Client)?;
        let held_mode = Mode::from_number(held).ok_or(Flaw::Mode)?;
        let asked_mode = Mode::from_number(asked).ok_or(Flaw::Mode)?;
        let holds = matches!(home, Home::Grant(_) | Home::Convert(_));
        let asks = matches!(home, Home::Convert(_) | Home::Wait(_));
        check(holds || held == 0, Flaw::Held)?;
        check(asks || asked == 0, Flaw::Asked)?;
        let standing = match (home, record[lock::COMPLETION]) {
            (Home::Denied, 2) => Standing::Denied,
            (Home::Grant(_), 0) => Standing::Granted { resource, held: held_mode, unread: None },
            (Home::Grant(_), 1) => Standing::Granted { resource, held: held_mode, unread: Some(Unread::Granted) },
            (Home::Grant(_), 3) => Standing::Granted { resource, held: held_mode, unread: Some(Unread::ConversionDenied) },
            (Home::Convert(_), 0) => Standing::Converting { resource, held: held_mode, asked: asked_mode },
            (Home::Wait(_), 0) => Standing::Waiting { resource, asked: asked_mode },
            _ => return Err(Flaw::Completion),
        };
        let mark_mode = Mode::from_number(record[lock::MARK]).ok_or(Flaw::Mark)?;
        let mark = Some(mark_mode).filter(|mode| *mode != Mode::Nl);
        check(holds || mark.is_none(), Flaw::Mark)?;
        Ok(Some(Lock { client, standing, mark }))
    }

    /// The blocked and notice chains, and the links of the locks that aren't on them.
    fn side_chains(&self, state: &State) -> Result<(), Flaw> {
        let with = |test: fn(&Lock) -> bool| -> BTreeSet<u32> {
            state.locks.iter().filter(|(_, lock)| test(lock)).map(|(number, _)| *number).collect()
        };
        let blocked = with(Lock::blocked);
        let noticed = with(Lock::noticed);
        let same = |chain: &VecDeque<u32>, set: &BTreeSet<u32>| &chain.iter().copied().collect::<BTreeSet<u32>>() == set;
        check(same(&state.blocked, &blocked), Flaw::Blocked)?;
        check(same(&state.notices, &noticed), Flaw::Notices)?;
        for number in 1..=self.locks {
            let record = self.lock_words(number);
            check(blocked.contains(&number) || record[lock::BLOCKED] == 0, Flaw::BlockedLink)?;
            check(noticed.contains(&number) || record[lock::NOTICE] == 0, Flaw::NoticeLink)?;
        }
        Ok(())
    }

    /// "Sound tables have true counts" (document 02, R-5): of the locks that hold NL to EX on each resource in use. Those of a free one are
    /// zeros, like all else in its record.
    fn true_counts(&self, state: &State) -> Result<(), Flaw> {
        for number in state.resources.keys() {
            let record = self.resource_words(*number);
            check(resource::COUNTS.map(|field| record[field]) == state.counts(*number), Flaw::Count)?;
        }
        Ok(())
    }
}

/// On which home chain each lock stands.
fn homes(state: &State) -> Result<BTreeMap<u32, Home>, Flaw> {
    let mut homes = BTreeMap::new();
    let mut put = |numbers: &VecDeque<u32>, home: Home| {
        numbers.iter().try_for_each(|number| check(homes.insert(*number, home).is_none(), Flaw::TwoHomes))
    };
    put(&state.free_locks, Home::Free)?;
    put(&state.denied, Home::Denied)?;
    for (number, resource) in &state.resources {
        put(&resource.granted, Home::Grant(*number))?;
        put(&resource.converting, Home::Convert(*number))?;
        put(&resource.waiting, Home::Wait(*number))?;
    }
    Ok(homes)
}

/// Held modes are pairwise compatible on each resource, and no head is grantable.
fn modes_agree(state: &State) -> Result<(), Flaw> {
    for number in state.resources.keys() {
        check(pairwise_compatible(state, *number), Flaw::Clash)?;
        check(state.grantable_convert_head(*number).is_none(), Flaw::ConvertHead)?;
        check(state.grantable_wait_head(*number).is_none(), Flaw::WaitHead)?;
    }
    Ok(())
}

/// Whether any two locks that hold a mode on a resource hold compatible ones. What two locks hold is all that counts, so it is enough to
/// look at each two modes that occur, and at a mode beside itself if two locks hold it.
fn pairwise_compatible(state: &State, resource: u32) -> bool {
    let occurring: Vec<(Mode, u32)> = Mode::ALL.into_iter().zip(state.counts(resource)).collect();
    let both = |a: &(Mode, u32), b: &(Mode, u32)| if a.0 == b.0 { a.1 >= 2 } else { a.1 >= 1 && b.1 >= 1 };
    occurring.iter().all(|a| occurring.iter().filter(|b| both(a, b)).all(|b| a.0.compatible(b.0)))
}
