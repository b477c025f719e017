//! Sound states that no list of calls need reach: chains in any order, any modes that go together. They are loaded as images, so that both
//! managers meet all that soundness allows.

use crate::rng::Rng;
use crate::sizes::Sizes;
use model::layout::{self, NAME_BYTES, VALUE_BYTES};
use model::{Lock, Mode, Resource, Standing, State, Unread};
use std::collections::VecDeque;

/// How a state is to be filled.
pub struct Filling<'a> {
    pub resources: u32,
    pub locks: u32,
    pub clients: &'a [u32],
    pub names: &'a [Vec<u8>],
    /// How many resources are to be in use, as far as names and locks go; then all locks are, if these are all resources.
    pub used: Option<u32>,
}

/// How the locks of a random state stand, as weights: granted, converting, waiting, denied.
const STANDINGS: [usize; 4] = [45, 22, 28, 5];

/// A started state.
pub fn started(resources: u32, locks: u32) -> State {
    State::start(resources, locks, layout::words(resources, locks), layout::slots(resources)).expect("sizes in range")
}

/// A random sound state.
pub fn random(rng: &mut Rng, filling: &Filling) -> State {
    let mut state = started(filling.resources, filling.locks);
    rng.shuffle(state.free_resources.make_contiguous());
    rng.shuffle(state.free_locks.make_contiguous());
    let in_use = match filling.used {
        Some(used) if used == filling.resources => filling.locks as usize,
        Some(used) => rng.between(used.min(filling.locks) as usize, filling.locks as usize),
        None => how_many(rng, filling.locks as usize),
    };
    let used = take_resources(rng, &mut state, filling, in_use);
    for at in 0..in_use {
        // The first locks see to it that no resource is left without one.
        let first = used.get(at).copied();
        let resource = first.or_else(|| (!used.is_empty()).then(|| *hot(rng, &used)));
        add_lock(rng, &mut state, filling, resource, first.is_some());
    }
    for resource in used {
        state.sweep(resource);
    }
    if filling.used.is_none() && rng.percent(30) {
        add_exclusive_conversion(rng, &mut state, filling);
    }
    state
}

/// The sizes of [`varied`].
pub const VARIED: Sizes = (8, 32);

/// A state in which every damage has a place: locks of every state and mode on several resources, and at least two records on every chain.
pub fn varied() -> State {
    use Mode::{Cr, Cw, Ex, Nl, Pr, Pw};
    let mut state = started(VARIED.0, VARIED.1);
    let names: [&[u8]; 5] = [b"vip-7", b"vip-8", b"a", b"a\0", &[b'n'; NAME_BYTES]];
    for name in names {
        let number = state.free_resources.pop_front().expect("more than there are names");
        let queues = Resource { value: [number as u8; VALUE_BYTES], valid: number % 2 == 1, ..Resource::new(name) };
        state.resources.insert(number, queues);
    }
    let granted = |resource, held, unread| Standing::Granted { resource, held, unread };
    let converting = |resource, held, asked| Standing::Converting { resource, held, asked };
    let waiting = |resource, asked| Standing::Waiting { resource, asked };
    let standings = [
        granted(1, Cr, None),
        granted(1, Cr, Some(Unread::Granted)),
        Standing::Denied,
        granted(1, Nl, Some(Unread::ConversionDenied)),
        converting(1, Nl, Ex),
        converting(1, Cr, Pw),
        converting(1, Pr, Pr),
        waiting(1, Cr),
        waiting(1, Pr),
        waiting(1, Ex),
        Standing::Denied,
        granted(2, Ex, None),
        granted(2, Nl, None),
        waiting(2, Ex),
        waiting(2, Cr),
        waiting(2, Pr),
        granted(3, Cr, None),
        converting(3, Nl, Ex),
        waiting(3, Cr),
        granted(4, Pr, None),
        granted(4, Pr, Some(Unread::Granted)),
        granted(4, Pr, None),
        waiting(4, Ex),
        Standing::Denied,
        granted(5, Nl, None),
        granted(3, Pw, None),
        granted(5, Cw, None),
    ];
    for (at, standing) in standings.into_iter().enumerate() {
        put(&mut state, 1 + at as u8 % 4, standing);
    }
    // Of each kind of lock that may have a mark, some have one and others none.
    for (number, mark) in [(2, Ex), (6, Pw), (7, Ex), (12, Cr), (17, Ex), (18, Ex), (20, Ex)] {
        set_mark(&mut state, number, mark);
    }
    state
}

/// A state in which all locks there are hold a mode on one name, by clients in turn.
pub fn alike((resources, locks): Sizes, clients: &[u32], name: &[u8], held: Mode) -> State {
    let mut state = started(resources, locks);
    let resource = state.free_resources.pop_front().expect("all are free");
    state.resources.insert(resource, Resource::new(name));
    for client in clients.iter().cycle().take(locks as usize) {
        put(&mut state, *client as u8, Standing::Granted { resource, held, unread: None });
    }
    state
}

/// A lock that holds a mode gets a mark, and joins the notices unless it has a completion.
fn set_mark(state: &mut State, number: u32, mark: Mode) {
    let lock = state.locks.get_mut(&number).expect("a lock in use");
    if !lock.noticed() {
        state.notices.push_back(number);
    }
    lock.mark = Some(mark);
}

/// The first free lock stands so, at the ends of its chains.
fn put(state: &mut State, client: u8, standing: Standing) {
    let number = state.free_locks.pop_front().expect("a free lock");
    let lock = Lock::new(client, standing);
    let queues = lock.resource().and_then(|resource| state.resources.get_mut(&resource));
    match (standing, queues) {
        (Standing::Granted { .. }, Some(queues)) => queues.granted.push_back(number),
        (Standing::Converting { .. }, Some(queues)) => queues.converting.push_back(number),
        (Standing::Waiting { .. }, Some(queues)) => queues.waiting.push_back(number),
        _ => state.denied.push_back(number),
    }
    if lock.blocked() {
        state.blocked.push_back(number);
    }
    if lock.noticed() {
        state.notices.push_back(number);
    }
    state.locks.insert(number, lock);
}

/// A resource on which a converting lock holds EX, behind a conversion that it holds up. No calls lead there, since all from EX is down.
fn add_exclusive_conversion(rng: &mut Rng, state: &mut State, filling: &Filling) {
    let Some(name) = filling.names.iter().find(|name| state.named(name).is_none()) else { return };
    if state.free_locks.len() < 2 || state.free_resources.is_empty() {
        return;
    }
    let resource = state.free_resources.pop_front().expect("just seen");
    let mut queues = new_resource(rng, name);
    for (held, asked) in [(Mode::Nl, Mode::ALL[rng.between(1, 5)]), (Mode::Ex, *rng.pick(&Mode::ALL))] {
        let number = state.free_locks.pop_front().expect("just seen");
        queues.converting.push_back(number);
        insert_somewhere(rng, &mut state.blocked, number);
        insert_lock(rng, state, filling, number, Standing::Converting { resource, held, asked });
    }
    state.resources.insert(resource, queues);
}

/// A lock of some client stands so. It may have a mark, and is put among the notices if it has something to tell.
fn insert_lock(rng: &mut Rng, state: &mut State, filling: &Filling, number: u32, standing: Standing) {
    let mut lock = Lock::new(*rng.pick(filling.clients) as u8, standing);
    if lock.held().is_some() && rng.percent(35) {
        lock.mark = Some(Mode::ALL[rng.between(1, 5)]);
    }
    if lock.noticed() {
        insert_somewhere(rng, &mut state.notices, number);
    }
    state.locks.insert(number, lock);
}

/// A resource of a name with no locks yet and any value.
fn new_resource(rng: &mut Rng, name: &[u8]) -> Resource {
    let value = if rng.percent(50) { [0; VALUE_BYTES] } else { rng.bytes(VALUE_BYTES).try_into().expect("as many as asked for") };
    Resource { value, valid: rng.percent(60), ..Resource::new(name) }
}

/// How many of some locks are in use: often all or few.
fn how_many(rng: &mut Rng, most: usize) -> usize {
    match rng.below(5) {
        0 | 1 => most,
        2 => rng.below(most.min(6) + 1),
        _ => rng.below(most + 1),
    }
}

/// One of some resources, the first ones more often.
fn hot<'a>(rng: &mut Rng, used: &'a [u32]) -> &'a u32 {
    let reach = if rng.percent(70) { used.len().min(3) } else { used.len() };
    &used[rng.below(reach)]
}

fn take_resources(rng: &mut Rng, state: &mut State, filling: &Filling, in_use: usize) -> Vec<u32> {
    let most = (filling.resources as usize).min(filling.names.len()).min(in_use);
    if most == 0 {
        return Vec::new();
    }
    let count = filling.used.map_or_else(|| rng.between(1, most), |used| most.min(used as usize));
    let mut names: Vec<&Vec<u8>> = filling.names.iter().collect();
    rng.shuffle(&mut names);
    let mut used = Vec::new();
    for name in &names[..count] {
        let number = state.free_resources.pop_front().expect("no more than there are");
        let resource = new_resource(rng, name);
        state.resources.insert(number, resource);
        used.push(number);
    }
    used
}

/// A random mode that goes with those held on a resource.
fn fitting_mode(rng: &mut Rng, state: &State, resource: u32) -> Mode {
    let mode = *rng.pick(&Mode::ALL);
    if state.fits(resource, mode, 0) { mode } else { Mode::Nl }
}

fn add_lock(rng: &mut Rng, state: &mut State, filling: &Filling, resource: Option<u32>, stays: bool) {
    let number = state.free_locks.pop_front().expect("no more than there are");
    let kind = rng.weighted(&STANDINGS);
    let standing = match resource {
        Some(resource) if kind != 3 || stays => stand(rng, state, number, resource, kind),
        _ => {
            insert_somewhere(rng, &mut state.denied, number);
            Standing::Denied
        }
    };
    insert_lock(rng, state, filling, number, standing);
}

/// How a lock stands on a resource, whose chain it is put on.
fn stand(rng: &mut Rng, state: &mut State, number: u32, resource: u32, kind: usize) -> Standing {
    let held = fitting_mode(rng, state, resource);
    let asked = *rng.pick(&Mode::ALL);
    let queues = state.resources.get_mut(&resource).expect("a resource just taken");
    match kind {
        1 => {
            insert_somewhere(rng, &mut queues.converting, number);
            insert_somewhere(rng, &mut state.blocked, number);
            Standing::Converting { resource, held, asked }
        }
        2 => {
            insert_somewhere(rng, &mut queues.waiting, number);
            insert_somewhere(rng, &mut state.blocked, number);
            Standing::Waiting { resource, asked }
        }
        _ => {
            insert_somewhere(rng, &mut queues.granted, number);
            let unread = [None, None, None, Some(Unread::Granted), Some(Unread::ConversionDenied)][rng.below(5)];
            Standing::Granted { resource, held, unread }
        }
    }
}

fn insert_somewhere(rng: &mut Rng, chain: &mut VecDeque<u32>, number: u32) {
    chain.insert(rng.below(chain.len() + 1), number);
}

#[cfg(test)]
mod tests {
    use super::*;

    #[test]
    fn random_states_are_sound_and_come_back_from_their_tables() {
        let mut rng = Rng::new(7);
        let names: Vec<Vec<u8>> = (0..9_u8).map(|at| vec![at; 1 + at as usize]).collect();
        for _ in 0..2000 {
            let (resources, locks) = (rng.between(1, 8) as u32, rng.between(1, 24) as u32);
            let state = random(&mut rng, &Filling { resources, locks, clients: &[1, 2, 255], names: &names, used: None });
            let (words, slots) = state.to_tables();
            assert_eq!(State::read_tables(&words, &slots), Ok(state));
        }
    }

    #[test]
    fn made_states_are_sound() {
        for state in [varied(), alike((2, 9), &[1, 2], b"a", Mode::Cw)] {
            let (words, slots) = state.to_tables();
            assert_eq!(State::read_tables(&words, &slots), Ok(state));
        }
    }
}
