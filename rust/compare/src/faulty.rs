//! Managers with a mistake, for showing that it is found.

use crate::manager::{Flat, Listed, Manager, Tables, accepted, lock, mark, purged_blocked, purged_unread, refusal, result};
use model::layout::{self, MOST_CLIENT, header, lock_at, resource_at};
use model::{Flaw, Lock, Standing, State, Unread};

/// The mistakes that a faulty manager makes.
#[derive(Clone, Copy, Debug)]
pub enum Mistake {
    /// A purge of two or more locks answers one less.
    PurgeCount,
    /// A release leaves a stray byte where a freed slot ought to be zero.
    SlotByte,
    /// Unsound tables with a nonzero word 7 are taken for sound.
    Soundness,
    /// Unsound tables whose counts of held modes aren't true are taken for sound.
    WrongCounts,
    /// A conversion in place leaves the counts of held modes as they are.
    Uncounted,
    /// A new request goes past those that wait, as it did before document 02.
    Overtaking,
    /// A poll doesn't tell the mark.
    UntoldMark,
    /// A poll tells a mark and leaves it in its lock.
    KeptMark,
    /// A purge counts converting locks alone as blocked.
    ConvertingAlone,
    /// A purge counts a denied lock as blocked too.
    CountedTwice,
    /// A purge counts a mark alone as a completion unread.
    MarkCounted,
    /// A purge answers its last two counts in the other order.
    CountsExchanged,
    /// A release's sweep grants without a completion.
    SilentSweep,
    /// A cancelled conversion is told of as denied.
    ToldCancel,
    /// A poll takes the first notice, whosever it is.
    OthersNotice,
}

/// Flat with one mistake.
pub struct Faulty(pub Mistake);

impl Manager for Faulty {
    fn start(&self, t: &mut Tables, resources: u32, locks: u32) -> u64 {
        Flat.start(t, resources, locks)
    }

    fn request(&self, t: &mut Tables, client: u32, mode: u32, flags: u32, name: &[u8]) -> u64 {
        match self.0 {
            Mistake::Overtaking => overtaking(t, client, mode, flags, name),
            _ => Flat.request(t, client, mode, flags, name),
        }
    }

    fn convert(&self, t: &mut Tables, client: u32, lock: u32, mode: u32, flags: u32, value: &[u8]) -> u64 {
        let before = t.words.clone();
        let answer = Flat.convert(t, client, lock, mode, flags, value);
        if let (Mistake::Uncounted, 1) = (self.0, answer) {
            let resource = before[lock_at(before[header::RESOURCES], lock, layout::lock::RESOURCE)];
            let places = layout::resource::COUNTS.map(|field| resource_at(resource, field));
            places.into_iter().for_each(|at| t.words[at] = before[at]);
        }
        answer
    }

    fn release(&self, t: &mut Tables, client: u32, lock: u32, flags: u32, value: &[u8]) -> u64 {
        let before = State::from_tables(&t.words, &t.slots);
        let answer = Flat.release(t, client, lock, flags, value);
        match (self.0, answer, t.slots.last_mut()) {
            (Mistake::SlotByte, 0, Some(last)) => *last = 1,
            (Mistake::SilentSweep, 0, _) => before.iter().flat_map(|state| &state.blocked).for_each(|lock| tell(t, *lock, None)),
            _ => {}
        }
        answer
    }

    fn cancel(&self, t: &mut Tables, client: u32, lock: u32) -> u64 {
        let answer = Flat.cancel(t, client, lock);
        if let (Mistake::ToldCancel, 1) = (self.0, answer) {
            tell(t, lock, Some(Unread::ConversionDenied));
        }
        answer
    }

    fn purge(&self, t: &mut Tables, client: u32) -> u64 {
        let before = State::from_tables(&t.words, &t.slots);
        let answer = Flat.purge(t, client);
        let Some(before) = before.filter(|_| refusal(answer).is_none()) else { return answer };
        let its = |is: fn(&Lock) -> bool| before.locks.values().filter(|lock| u32::from(lock.client) == client && is(lock)).count() as u32;
        let (locks, blocked, unread) = (result(answer), purged_blocked(answer), purged_unread(answer));
        match self.0 {
            Mistake::PurgeCount if locks >= 2 => accepted(locks - 1, blocked, unread),
            Mistake::ConvertingAlone => accepted(locks, its(|lock| lock.state_number() == 2), unread),
            Mistake::CountedTwice => accepted(locks, blocked + its(|lock| lock.standing == Standing::Denied), unread),
            Mistake::MarkCounted => accepted(locks, blocked, its(Lock::noticed)),
            Mistake::CountsExchanged => accepted(locks, unread, blocked),
            _ => answer,
        }
    }

    fn break_deadlock(&self, t: &mut Tables) -> u64 {
        Flat.break_deadlock(t)
    }

    fn poll(&self, t: &mut Tables, client: u32) -> u64 {
        let client = match self.0 {
            Mistake::OthersNotice if (1..=MOST_CLIENT).contains(&client) => first_notice(t).unwrap_or(client),
            _ => client,
        };
        let answer = Flat.poll(t, client);
        match self.0 {
            Mistake::UntoldMark if refusal(answer).is_none() => accepted(result(answer), lock(answer), 0),
            Mistake::KeptMark if refusal(answer).is_none() && mark(answer) != 0 => {
                let resources = t.words[header::RESOURCES];
                t.words[lock_at(resources, lock(answer), layout::lock::MARK)] = mark(answer);
                answer
            }
            _ => answer,
        }
    }

    fn read(&self, t: &Tables, client: u32, lock: u32, value: &mut [u8]) -> u64 {
        Flat.read(t, client, lock, value)
    }

    fn list(&self, t: &Tables, client: u32, lock: u32, entries: &mut [Listed]) -> u64 {
        Flat.list(t, client, lock, entries)
    }

    fn image(&self, t: &Tables, area: &mut [u8]) -> u64 {
        Flat.image(t, area)
    }

    fn load(&self, image: &[u8], t: &mut Tables) -> u64 {
        Flat.load(image, t)
    }

    fn sound(&self, t: &Tables) -> u32 {
        if let (Mistake::WrongCounts, Err(Flaw::Count)) = (self.0, State::read_tables(&t.words, &t.slots)) {
            return 1;
        }
        let mut eased = t.clone();
        if let (Mistake::Soundness, Some(word)) = (self.0, eased.words.get_mut(header::ZERO)) {
            *word = 0;
        }
        Flat.sound(&eased)
    }

    fn holder(&self, image: &[u8], name: &[u8]) -> u32 {
        Flat.holder(image, name)
    }
}

/// A granted lock's completion becomes another, or none. Other locks stay as they are.
fn tell(t: &mut Tables, number: u32, told: Option<Unread>) {
    let Some(mut state) = State::from_tables(&t.words, &t.slots) else { return };
    let Some(lock) = state.locks.get_mut(&number) else { return };
    let Standing::Granted { unread, .. } = &mut lock.standing else { return };
    *unread = told;
    let noticed = lock.noticed();
    state.notices.retain(|other| noticed || *other != number);
    if noticed && !state.notices.contains(&number) {
        state.notices.push_back(number);
    }
    (t.words, t.slots) = state.to_tables();
}

/// The client of the first notice.
fn first_notice(t: &Tables) -> Option<u32> {
    let state = State::from_tables(&t.words, &t.slots)?;
    state.notices.front().map(|lock| u32::from(state.locks[lock].client))
}

/// A request that is granted as if nobody waited.
fn overtaking(t: &mut Tables, client: u32, mode: u32, flags: u32, name: &[u8]) -> u64 {
    let granted = State::from_tables(&t.words, &t.slots).and_then(|mut state| {
        let resource = state.named(name)?;
        let waiting = std::mem::take(&mut state.resources.get_mut(&resource)?.waiting);
        let (answer, number) = state.request(client, mode, flags, name).ok()?;
        state.resources.get_mut(&resource)?.waiting = waiting;
        (answer == model::Answer::Granted).then_some((state, number))
    });
    let Some((state, number)) = granted else { return Flat.request(t, client, mode, flags, name) };
    (t.words, t.slots) = state.to_tables();
    accepted(1, number, 0)
}
