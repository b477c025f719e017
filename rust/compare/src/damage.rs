//! Makes changes to sound tables, in a few words or bytes: the named ones of [`crate::damages`], and some anywhere.

use crate::call::{Change, Changes};
use crate::damages::{DAMAGES, Damage};
use crate::manager::Tables;
use crate::miscounts::count_changes;
use crate::rng::Rng;
use model::layout::{self, MOST_LOCKS, NAME_BYTES, SLOT_BYTES, header, lock, resource, resource_at, slot_at};
use model::{Lock, Mode, Resource, Standing, State};
use std::collections::VecDeque;
use std::ops::Range;

pub const MOST: u32 = u32::MAX;

pub fn granted(lock: &Lock) -> bool {
    matches!(lock.standing, Standing::Granted { .. })
}

pub fn converting(lock: &Lock) -> bool {
    matches!(lock.standing, Standing::Converting { .. })
}

pub fn waiting(lock: &Lock) -> bool {
    matches!(lock.standing, Standing::Waiting { .. })
}

pub fn denied(lock: &Lock) -> bool {
    lock.standing == Standing::Denied
}

/// A granted lock with a completion.
pub fn unread(lock: &Lock) -> bool {
    granted(lock) && lock.completion() != 0
}

/// A granted lock with a mark and no completion.
pub fn marked(lock: &Lock) -> bool {
    granted(lock) && lock.completion() == 0 && lock.mark.is_some()
}

/// A granted lock that has nothing to tell.
pub fn quiet(lock: &Lock) -> bool {
    granted(lock) && !lock.noticed()
}

/// A converting lock with a mark.
pub fn marked_converting(lock: &Lock) -> bool {
    converting(lock) && lock.mark.is_some()
}

/// A converting lock with no mark.
pub fn quiet_converting(lock: &Lock) -> bool {
    converting(lock) && lock.mark.is_none()
}

pub fn word(at: usize, word: u32) -> Option<Vec<Change>> {
    Some(vec![Change::Word(at, word)])
}

/// Sets a word of a resource's record.
fn resource_change(number: u32, field: usize, word: u32) -> Change {
    Change::Word(resource_at(number, field), word)
}

/// The chains that tables have.
#[derive(Clone, Copy, PartialEq, Eq)]
pub enum Kind {
    FreeResources,
    FreeLocks,
    Denied,
    Blocked,
    Notices,
    Grant,
    Convert,
    Wait,
}

/// A chain: the place of its head, its numbers, and the word of a record that is the link.
struct Chain<'a> {
    head: usize,
    numbers: &'a VecDeque<u32>,
    link: usize,
    of_resources: bool,
}

impl<'a> Chain<'a> {
    fn of_locks(head: usize, numbers: &'a VecDeque<u32>, link: usize) -> Chain<'a> {
        Chain { head, numbers, link, of_resources: false }
    }
}

/// A maker of changes to some tables that have a state.
pub struct Damager<'a> {
    pub rng: &'a mut Rng,
    pub tables: &'a Tables,
    pub state: &'a State,
}

impl<'a> Damager<'a> {
    /// A named damage for which there is a place, or changes anywhere.
    pub fn changes(&mut self) -> Changes {
        let tries = if self.rng.percent(80) { 12 } else { 0 };
        let named = (0..tries).find_map(|_| {
            let damage = self.rng.pick(DAMAGES);
            self.named(damage)
        });
        named.unwrap_or_else(|| Changes { label: "", list: (0..self.rng.between(1, 3)).map(|_| self.one_anywhere()).collect() })
    }

    /// A damage, if there is a place for it.
    pub fn named(&mut self, damage: &Damage) -> Option<Changes> {
        (damage.make)(self).map(|list| Changes { label: damage.label, list })
    }

    fn lock_at(&self, number: u32, field: usize) -> usize {
        layout::lock_at(self.state.most_resources, number, field)
    }

    /// Sets a word of a lock's record.
    fn lock_change(&self, number: u32, field: usize, word: u32) -> Change {
        Change::Word(self.lock_at(number, field), word)
    }

    fn link_at(&self, chain: &Chain, number: u32) -> usize {
        if chain.of_resources { resource_at(number, chain.link) } else { self.lock_at(number, chain.link) }
    }

    /// The word that names the number at a place of a chain, or ends it.
    fn cell_at(&self, chain: &Chain, place: usize) -> usize {
        if place == 0 { chain.head } else { self.link_at(chain, chain.numbers[place - 1]) }
    }

    pub fn pick<T: Copy>(&mut self, things: &[T]) -> Option<T> {
        if things.is_empty() { None } else { Some(*self.rng.pick(things)) }
    }

    pub fn lock_where(&mut self, fits: impl Fn(&Lock) -> bool) -> Option<u32> {
        let found: Vec<u32> = self.state.locks.iter().filter(|(_, lock)| fits(lock)).map(|(number, _)| *number).collect();
        self.pick(&found)
    }

    pub fn resource_where(&mut self, fits: impl Fn(&Resource) -> bool) -> Option<u32> {
        let found: Vec<u32> = self.state.resources.iter().filter(|(_, resource)| fits(resource)).map(|(number, _)| *number).collect();
        self.pick(&found)
    }

    fn free_lock(&mut self) -> Option<u32> {
        let state = self.state;
        let count = state.free_locks.len();
        if count == 0 { None } else { state.free_locks.get(self.rng.below(count)).copied() }
    }

    fn free_resource(&mut self) -> Option<u32> {
        let state = self.state;
        let count = state.free_resources.len();
        if count == 0 { None } else { state.free_resources.get(self.rng.below(count)).copied() }
    }

    /// A number from 1 up.
    pub fn up_to(&mut self, most: u32) -> u32 {
        self.rng.between(1, most as usize) as u32
    }

    pub fn above_zero(&mut self) -> u32 {
        *self.rng.pick(&[1, 2, 255, MOST])
    }

    pub fn a_lock(&mut self) -> u32 {
        self.up_to(self.state.most_locks)
    }

    /// An index that is out of range by one or by far.
    pub fn beyond(&mut self, most: u32) -> u32 {
        *self.rng.pick(&[most + 1, most + 1, MOST_LOCKS + 1, MOST])
    }

    pub fn beyond_locks(&mut self) -> u32 {
        self.beyond(self.state.most_locks)
    }

    pub fn words_length(&mut self, more: isize) -> Option<Vec<Change>> {
        Some(vec![Change::WordsLength(self.tables.words.len().saturating_add_signed(more))])
    }

    pub fn slots_length(&mut self, more: isize) -> Option<Vec<Change>> {
        Some(vec![Change::SlotsLength(self.tables.slots.len().saturating_add_signed(more))])
    }

    pub fn used_word(&mut self, field: usize, value: fn(&mut Damager<'a>) -> u32) -> Option<Vec<Change>> {
        let resource = self.resource_where(|_| true)?;
        word(resource_at(resource, field), value(self))
    }

    pub fn free_word(&mut self, field: usize, value: fn(&mut Damager<'a>) -> u32) -> Option<Vec<Change>> {
        let resource = self.free_resource()?;
        word(resource_at(resource, field), value(self))
    }

    pub fn any_lock_word(&mut self, field: usize, value: fn(&mut Damager<'a>) -> u32) -> Option<Vec<Change>> {
        let lock = self.a_lock();
        word(self.lock_at(lock, field), value(self))
    }

    pub fn free_lock_word(&mut self, field: usize, value: fn(&mut Damager<'a>) -> u32) -> Option<Vec<Change>> {
        let lock = self.free_lock()?;
        word(self.lock_at(lock, field), value(self))
    }

    pub fn lock_word(&mut self, fits: fn(&Lock) -> bool, field: usize, value: fn(&mut Damager<'a>) -> u32) -> Option<Vec<Change>> {
        let lock = self.lock_where(fits)?;
        word(self.lock_at(lock, field), value(self))
    }

    /// A byte of a resource's slot that isn't what it was.
    fn byte(&mut self, resource: u32, within: usize) -> Option<Vec<Change>> {
        let at = slot_at(resource, within);
        let other = self.tables.slots[at].wrapping_add(self.rng.between(1, 255) as u8);
        Some(vec![Change::Byte(at, other)])
    }

    pub fn free_byte(&mut self, part: Range<usize>) -> Option<Vec<Change>> {
        let (resource, within) = (self.free_resource()?, self.rng.within(part));
        self.byte(resource, within)
    }

    pub fn value_byte(&mut self) -> Option<Vec<Change>> {
        let (resource, within) = (self.resource_where(|_| true)?, self.rng.within(NAME_BYTES..SLOT_BYTES));
        self.byte(resource, within)
    }

    pub fn byte_after_name(&mut self, place: fn(usize) -> usize) -> Option<Vec<Change>> {
        let resource = self.resource_where(|resource| resource.name.len() < NAME_BYTES)?;
        self.byte(resource, place(self.state.resources[&resource].name.len()))
    }

    /// A name's length is one less, and its last byte isn't zero.
    pub fn cut_name(&mut self) -> Option<Vec<Change>> {
        let resource = self.resource_where(|resource| resource.name.len() > 1 && resource.name.last() != Some(&0))?;
        word(resource_at(resource, resource::NAME_LENGTH), self.state.resources[&resource].name.len() as u32 - 1)
    }

    /// A chain of a kind that has at least so many numbers.
    fn chain(&mut self, kind: Kind, least: usize) -> Option<Chain<'a>> {
        let state = self.state;
        let queue = |queues: &'a Resource| match kind {
            Kind::Grant => &queues.granted,
            Kind::Convert => &queues.converting,
            _ => &queues.waiting,
        };
        let chain = match kind {
            Kind::FreeResources => {
                Chain { head: header::FREE_RESOURCE, numbers: &state.free_resources, link: resource::NEXT, of_resources: true }
            }
            Kind::FreeLocks => Chain::of_locks(header::FREE_LOCK, &state.free_locks, lock::HOME),
            Kind::Denied => Chain::of_locks(header::DENIED, &state.denied, lock::HOME),
            Kind::Blocked => Chain::of_locks(header::BLOCKED, &state.blocked, lock::BLOCKED),
            Kind::Notices => Chain::of_locks(header::NOTICE, &state.notices, lock::NOTICE),
            Kind::Grant | Kind::Convert | Kind::Wait => {
                let long: Vec<u32> =
                    state.resources.iter().filter(|(_, queues)| queue(queues).len() >= least).map(|(number, _)| *number).collect();
                let resource = self.pick(&long)?;
                let field = match kind {
                    Kind::Grant => resource::GRANT,
                    Kind::Convert => resource::CONVERT,
                    _ => resource::WAIT,
                };
                Chain::of_locks(resource_at(resource, field), queue(&state.resources[&resource]), lock::HOME)
            }
        };
        Some(chain).filter(|chain| chain.numbers.len() >= least)
    }

    /// A home chain of locks of any kind that has at least so many.
    fn home_chain(&mut self, least: usize) -> Option<Chain<'a>> {
        let kind = *self.rng.pick(&[Kind::FreeLocks, Kind::Denied, Kind::Grant, Kind::Convert, Kind::Wait]);
        self.chain(kind, least)
    }

    /// The last of a chain leads to one on it.
    pub fn circle(&mut self, kind: Kind) -> Option<Vec<Change>> {
        let chain = self.chain(kind, 1)?;
        let count = chain.numbers.len();
        word(self.cell_at(&chain, count), chain.numbers[self.rng.below(count)])
    }

    pub fn after_itself(&mut self) -> Option<Vec<Change>> {
        let chain = self.home_chain(1)?;
        let place = self.rng.below(chain.numbers.len());
        word(self.cell_at(&chain, place + 1), chain.numbers[place])
    }

    /// The last of a chain is left out of it. A lock's resource keeps another lock.
    pub fn drop_last(&mut self, kind: Kind) -> Option<Vec<Change>> {
        let chain = self.chain(kind, 1)?;
        let last = *chain.numbers.back()?;
        let resource = if chain.of_resources { None } else { self.state.locks.get(&last).and_then(Lock::resource) };
        if resource.is_some_and(|resource| self.state.resources[&resource].locks().count() < 2) {
            return None;
        }
        word(self.cell_at(&chain, chain.numbers.len() - 1), 0)
    }

    pub fn free_and_used(&mut self) -> Option<Vec<Change>> {
        let chain = self.chain(Kind::FreeResources, 0)?;
        word(self.cell_at(&chain, chain.numbers.len()), self.resource_where(|_| true)?)
    }

    /// The first free lock stands on the grant chain of a free resource.
    pub fn free_takes_lock(&mut self) -> Option<Vec<Change>> {
        let (resource, lock) = (self.free_resource()?, *self.state.free_locks.front()?);
        let link = self.lock_at(lock, lock::HOME);
        Some(vec![
            Change::Word(header::FREE_LOCK, self.tables.words[link]),
            Change::Word(link, 0),
            resource_change(resource, resource::GRANT, lock),
            self.lock_change(lock, lock::RESOURCE, resource),
            self.lock_change(lock, lock::CLIENT, 1),
            self.lock_change(lock, lock::STATE, 1),
        ])
    }

    /// A name becomes another's, from which it differs in at most so many bytes.
    pub fn same_name(&mut self, most: usize) -> Option<Vec<Change>> {
        let one = self.resource_where(|_| true)?;
        let new = self.state.resources[&one].name.clone();
        let unlike = |name: &[u8]| (0..NAME_BYTES).filter(|at| name.get(*at).unwrap_or(&0) != new.get(*at).unwrap_or(&0)).count();
        let other = self.resource_where(|other| {
            other.name != new && (most == NAME_BYTES || other.name.len() == new.len() && unlike(&other.name) <= most)
        })?;
        let bytes = (0..NAME_BYTES).map(|at| Change::Byte(slot_at(other, at), *new.get(at).unwrap_or(&0)));
        Some(bytes.chain([resource_change(other, resource::NAME_LENGTH, new.len() as u32)]).collect())
    }

    /// A free resource gets a name and no lock.
    pub fn name_without_locks(&mut self) -> Option<Vec<Change>> {
        let free = *self.state.free_resources.front()?;
        let link = resource_at(free, resource::NEXT);
        let after = Change::Word(header::FREE_RESOURCE, self.tables.words[link]);
        Some(vec![after, Change::Word(link, 0), resource_change(free, resource::NAME_LENGTH, 1)])
    }

    pub fn no_heads(&mut self) -> Option<Vec<Change>> {
        let used = self.resource_where(|_| true)?;
        Some(resource::LOCK_HEADS.map(|field| resource_change(used, field, 0)).to_vec())
    }

    /// Two home chains, the second not empty.
    fn two_homes(&mut self, least: usize) -> Option<(Chain<'a>, Chain<'a>)> {
        let chains = (self.home_chain(least)?, self.home_chain(1)?);
        (chains.0.head != chains.1.head).then_some(chains)
    }

    pub fn shared_tail(&mut self) -> Option<Vec<Change>> {
        let (one, other) = self.two_homes(1)?;
        let place = self.rng.below(other.numbers.len());
        word(self.cell_at(&one, one.numbers.len()), other.numbers[place])
    }

    pub fn shared_head(&mut self) -> Option<Vec<Change>> {
        let (one, other) = self.two_homes(0)?;
        let place = self.rng.below(other.numbers.len());
        word(one.head, other.numbers[place])
    }

    pub fn other_resource(&mut self, fits: fn(&Lock) -> bool) -> Option<Vec<Change>> {
        let lock = self.lock_where(fits)?;
        let other = self.up_to(self.state.most_resources);
        if self.state.locks[&lock].resource() == Some(other) { None } else { word(self.lock_at(lock, lock::RESOURCE), other) }
    }

    /// A lock that has nothing to tell gets a completion or a mark, and joins the notice chain.
    fn give(&mut self, fits: fn(&Lock) -> bool, field: usize, number: u32) -> Option<Vec<Change>> {
        let lock = self.lock_where(fits)?;
        let end = self.state.notices.back().map_or(header::NOTICE, |last| self.lock_at(*last, lock::NOTICE));
        Some(vec![self.lock_change(lock, field, number), Change::Word(end, lock)])
    }

    pub fn give_completion(&mut self, fits: fn(&Lock) -> bool) -> Option<Vec<Change>> {
        let completion = self.a_completion();
        self.give(fits, lock::COMPLETION, completion)
    }

    pub fn give_mark(&mut self, fits: fn(&Lock) -> bool, value: fn(&mut Damager<'a>) -> u32) -> Option<Vec<Change>> {
        let mark = value(self);
        self.give(fits, lock::MARK, mark)
    }

    /// One that a granted lock can have.
    pub fn a_completion(&mut self) -> u32 {
        *self.rng.pick(&[1, 3])
    }

    pub fn a_mark(&mut self) -> u32 {
        self.up_to(Mode::Ex.number())
    }

    pub fn other_completion(&mut self) -> Option<Vec<Change>> {
        let lock = self.lock_where(unread)?;
        word(self.lock_at(lock, lock::COMPLETION), 4 - self.state.locks[&lock].completion())
    }

    pub fn other_mark(&mut self) -> Option<Vec<Change>> {
        let lock = self.lock_where(|lock| lock.mark.is_some())?;
        let mark = self.a_mark();
        if self.state.locks[&lock].mark_number() == mark { None } else { word(self.lock_at(lock, lock::MARK), mark) }
    }

    /// A lock leaves a chain on which it belongs.
    pub fn take_off(&mut self, kind: Kind, fits: fn(&Lock) -> bool) -> Option<Vec<Change>> {
        let chain = self.chain(kind, 1)?;
        let places: Vec<usize> = (0..chain.numbers.len()).filter(|at| fits(&self.state.locks[&chain.numbers[*at]])).collect();
        let place = self.pick(&places)?;
        let link = self.cell_at(&chain, place + 1);
        Some(vec![Change::Word(self.cell_at(&chain, place), self.tables.words[link]), Change::Word(link, 0)])
    }

    /// A lock joins the end of a chain on which it doesn't belong.
    pub fn put_on(&mut self, kind: Kind, fits: fn(&Lock) -> bool) -> Option<Vec<Change>> {
        let chain = self.chain(kind, 0)?;
        word(self.cell_at(&chain, chain.numbers.len()), self.lock_where(fits)?)
    }

    pub fn free_lock_on(&mut self, kind: Kind) -> Option<Vec<Change>> {
        let chain = self.chain(kind, 0)?;
        word(self.cell_at(&chain, chain.numbers.len()), self.free_lock()?)
    }

    /// Two locks on a resource hold two modes, the second of them a lock of some kind.
    pub fn clash(&mut self, one: Mode, other: Mode, fits: fn(&Lock) -> bool) -> Option<Vec<Change>> {
        let state = self.state;
        let of_kind = |resource: &Resource| resource.holders().filter(|lock| fits(&state.locks[lock])).collect::<Vec<u32>>();
        let resource = self.resource_where(|resource| resource.holders().count() >= 2 && !of_kind(resource).is_empty())?;
        let second = self.pick(&of_kind(&state.resources[&resource]))?;
        let firsts: Vec<u32> = state.resources[&resource].holders().filter(|lock| *lock != second).collect();
        let first = self.pick(&firsts)?;
        Some(self.hold(resource, &[(first, one), (second, other)]))
    }

    /// Some holders on a resource hold other modes, and its counts are true of them.
    fn hold(&self, resource: u32, others: &[(u32, Mode)]) -> Vec<Change> {
        let mut counts = self.state.counts(resource);
        let mut changes = Vec::new();
        for (lock, mode) in others {
            let held = self.state.locks[lock].held().expect("a holder");
            counts[held as usize] -= 1;
            counts[*mode as usize] += 1;
            changes.push(self.lock_change(*lock, lock::HELD, mode.number()));
        }
        changes.extend(count_changes(resource, counts));
        changes
    }

    /// A convert head asks for a mode that the others' modes go with.
    pub fn ease_convert_head(&mut self) -> Option<Vec<Change>> {
        let resource = self.resource_where(|resource| !resource.converting.is_empty())?;
        let head = *self.state.resources[&resource].converting.front()?;
        let eased: Vec<Mode> = Mode::ALL.into_iter().filter(|mode| self.state.fits(resource, *mode, head)).collect();
        word(self.lock_at(head, lock::ASKED), self.pick(&eased)?.number())
    }

    /// All others on a resource hold NL, and its convert head asks for a mode that doesn't go with the one that it holds.
    pub fn own_mode_alone(&mut self) -> Option<Vec<Change>> {
        let resource = self.resource_where(|resource| !resource.converting.is_empty())?;
        let head = *self.state.resources[&resource].converting.front()?;
        let pairs = Mode::ALL.into_iter().flat_map(|held| Mode::ALL.map(|asked| (held, asked)));
        let (held, asked) = self.pick(&pairs.filter(|(held, asked)| !held.compatible(*asked)).collect::<Vec<_>>())?;
        let held = [self.others_null(resource, head), vec![(head, held)]].concat();
        Some([self.hold(resource, &held), vec![self.lock_change(head, lock::ASKED, asked.number())]].concat())
    }

    pub fn ease_wait_head(&mut self) -> Option<Vec<Change>> {
        let resource = self.resource_where(|resource| resource.converting.is_empty() && !resource.waiting.is_empty())?;
        let head = *self.state.resources[&resource].waiting.front()?;
        let eased: Vec<Mode> = Mode::ALL.into_iter().filter(|mode| self.state.fits(resource, *mode, 0)).collect();
        word(self.lock_at(head, lock::ASKED), self.pick(&eased)?.number())
    }

    /// All that hold a mode beside a head hold NL.
    pub fn give_way(&mut self, head: fn(&Resource) -> Option<&u32>) -> Option<Vec<Change>> {
        let resource = self.resource_where(|resource| head(resource).is_some())?;
        head(&self.state.resources[&resource]).map(|head| self.hold(resource, &self.others_null(resource, *head)))
    }

    /// All that hold a mode beside a head, and NL for each.
    fn others_null(&self, resource: u32, head: u32) -> Vec<(u32, Mode)> {
        self.state.resources[&resource].holders().filter(|lock| *lock != head).map(|lock| (lock, Mode::Nl)).collect()
    }

    /// The only conversion of a resource, behind which a compatible request waits, is granted what it holds.
    pub fn restore_conversion(&mut self) -> Option<Vec<Change>> {
        let state = self.state;
        let alone = |resource: u32| {
            let queues = &state.resources[&resource];
            let asked = queues.waiting.front().and_then(|head| state.locks[head].asked());
            queues.converting.len() == 1 && asked.is_some_and(|asked| state.fits(resource, asked, 0))
        };
        let found: Vec<u32> = state.resources.keys().copied().filter(|resource| alone(*resource)).collect();
        let resource = self.pick(&found)?;
        let queues = &state.resources[&resource];
        let lock = *queues.converting.front()?;
        let no_grants = resource_at(resource, resource::GRANT);
        let grant_end = queues.granted.back().map_or(no_grants, |last| self.lock_at(*last, lock::HOME));
        let blocked = self.chain(Kind::Blocked, 1)?;
        let place = blocked.numbers.iter().position(|other| *other == lock)?;
        let link = self.cell_at(&blocked, place + 1);
        Some(vec![
            resource_change(resource, resource::CONVERT, 0),
            Change::Word(grant_end, lock),
            self.lock_change(lock, lock::STATE, 1),
            self.lock_change(lock, lock::ASKED, 0),
            Change::Word(self.cell_at(&blocked, place), self.tables.words[link]),
            Change::Word(link, 0),
        ])
    }

    /// Two neighbours on a chain change places, which three words do. A head stays, unless it waits behind a conversion.
    pub fn swap_neighbours(&mut self, kind: Kind) -> Option<Vec<Change>> {
        let chain = self.chain(kind, 2)?;
        let numbers = chain.numbers;
        let behind = self.state.locks.get(&numbers[0]).and_then(Lock::resource).map(|resource| &self.state.resources[&resource].converting);
        let first = match kind {
            Kind::Convert => 1,
            Kind::Wait => usize::from(behind.is_some_and(VecDeque::is_empty)),
            _ => 0,
        };
        let at = Some(self.rng.between(first, first.max(numbers.len() - 2))).filter(|at| at + 1 < numbers.len())?;
        let after = numbers.get(at + 2).copied().unwrap_or(0);
        let (a, b) = (numbers[at], numbers[at + 1]);
        Some(vec![
            Change::Word(self.cell_at(&chain, at), b),
            Change::Word(self.link_at(&chain, b), a),
            Change::Word(self.link_at(&chain, a), after),
        ])
    }

    /// A conversion behind the convert head, and what it holds.
    fn conversion_behind(&mut self, fits: fn(Mode) -> bool) -> Option<(u32, Mode)> {
        let chain = self.chain(Kind::Convert, 2)?;
        let lock = chain.numbers[self.rng.between(1, chain.numbers.len() - 1)];
        self.state.locks[&lock].held().filter(|held| fits(*held)).map(|held| (lock, held))
    }

    pub fn ask_for_less(&mut self) -> Option<Vec<Change>> {
        let (lock, held) = self.conversion_behind(|held| held != Mode::Nl)?;
        let less: Vec<Mode> = Mode::ALL.into_iter().filter(|mode| *mode != held && held.down_to(*mode)).collect();
        word(self.lock_at(lock, lock::ASKED), self.pick(&less)?.number())
    }

    pub fn ask_for_same(&mut self) -> Option<Vec<Change>> {
        let (lock, held) = self.conversion_behind(|_| true)?;
        word(self.lock_at(lock, lock::ASKED), held.number())
    }

    /// A holder has another mode that goes with the others' and grants no head.
    pub fn other_held(&mut self) -> Option<Vec<Change>> {
        let (resource, lock, mode) = self.another_mode()?;
        let changes = self.hold(resource, &[(lock, mode)]);
        let mut changed = self.tables.clone();
        crate::call::damage(&mut changed, &changes);
        State::from_tables(&changed.words, &changed.slots).is_some().then_some(changes)
    }

    /// A holder on a resource, and a mode that it doesn't hold.
    fn another_mode(&mut self) -> Option<(u32, u32, Mode)> {
        let lock = self.lock_where(|lock| lock.held().is_some())?;
        let held = &self.state.locks[&lock];
        let mode = *self.rng.pick(&Mode::ALL);
        held.resource().filter(|_| held.held() != Some(mode)).map(|resource| (resource, lock, mode))
    }

    /// A holder has another mode than the one by which it is counted.
    pub fn held_uncounted(&mut self) -> Option<Vec<Change>> {
        let (_, lock, mode) = self.another_mode()?;
        Some(vec![self.lock_change(lock, lock::HELD, mode.number())])
    }

    pub fn turn_validity(&mut self) -> Option<Vec<Change>> {
        let resource = self.resource_where(|_| true)?;
        word(resource_at(resource, resource::VALIDITY), u32::from(!self.state.resources[&resource].valid))
    }

    /// A byte of a name is another, and the name still nobody else's.
    pub fn other_name(&mut self) -> Option<Vec<Change>> {
        let resource = self.resource_where(|_| true)?;
        let mut name = self.state.resources[&resource].name.clone();
        let within = self.rng.below(name.len());
        name[within] = name[within].wrapping_add(self.rng.between(1, 255) as u8);
        let change = Change::Byte(slot_at(resource, within), name[within]);
        self.state.named(&name).is_none().then(|| vec![change])
    }

    /// A word or byte anywhere, with a likely or unlikely number.
    fn one_anywhere(&mut self) -> Change {
        if self.rng.percent(25) {
            return Change::Byte(self.rng.below(self.tables.slots.len()), self.rng.next() as u8);
        }
        let at = self.rng.below(self.tables.words.len());
        let old = self.tables.words[at];
        let word = match self.rng.below(7) {
            0 => 0,
            1 => old.wrapping_add(1),
            2 => old.wrapping_sub(1),
            3 => self.rng.below(7) as u32,
            4 => *self.rng.pick(&self.tables.words),
            5 => self.rng.next() as u32,
            _ => self.a_lock(),
        };
        Change::Word(at, word)
    }
}
