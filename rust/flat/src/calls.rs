//! The calls: refusals first, in the paper's order, then the change.

use crate::Refused;
use crate::deadlock;
use crate::held::recount;
use crate::layout::{
    LockRecord, MOST_CLIENT, MOST_RESOURCES, NAME_BYTES, Records, ResourceRecord, Slot, VALUE_BYTES, Value, completion, head, held_mode,
    lock, noticed, resource, sizes_allowed, slots_for, state, words_for,
};
use crate::modes::{EX, NL, PW, down};
use crate::queues::{Queues, find};

const STORE: u32 = 1;
const INVALIDATE: u32 = 2;
const DONT_QUEUE: u32 = 4;

const GRANTED: u32 = 1;
const WAITS: u32 = 2;

/// Refuses unless something is right.
#[inline]
fn demand(right: bool, refused: Refused) -> Result<(), Refused> {
    if right { Ok(()) } else { Err(refused) }
}

#[inline]
fn check_client(client: u32) -> Result<(), Refused> {
    demand(client.wrapping_sub(1) < MOST_CLIENT as u32, 3)
}

#[inline]
fn check_mode(mode: u32) -> Result<(), Refused> {
    demand(mode <= EX, 4)
}

#[inline]
fn check_flags(flags: u32, allowed: u32) -> Result<(), Refused> {
    demand(flags & !allowed == 0 && flags & (STORE | INVALIDATE) != STORE | INVALIDATE, 5)
}

#[inline]
pub fn check_name(name: &[u8]) -> Result<(), Refused> {
    demand((1..=NAME_BYTES).contains(&name.len()), 6)
}

#[inline]
fn check_value(flags: u32, value: &[u8]) -> Result<(), Refused> {
    demand(flags & STORE == 0 || value.len() == VALUE_BYTES, 7)
}

/// A client's lock. A free record has client 0, so it is nobody's.
#[inline]
fn own(locks: &[LockRecord], client: u32, number: u32) -> Result<&LockRecord, Refused> {
    let record = (number as usize).checked_sub(1).and_then(|at| locks.get(at));
    record.filter(|record| record[lock::CLIENT] == client).ok_or(8)
}

/// A client's granted lock with no completion unread, for convert and release.
#[inline]
fn own_granted(locks: &[LockRecord], client: u32, number: u32) -> Result<&LockRecord, Refused> {
    let record = own(locks, client, number)?;
    demand(record[lock::COMPLETION] == completion::NONE, 9)?;
    demand(record[lock::STATE] == state::GRANTED, 10)?;
    Ok(record)
}

/// Stores a value or makes it not valid, as the flags say.
fn act_on_value(queues: &mut Queues, slots: &mut [u8], number: u32, flags: u32, value: &[u8]) {
    if flags & STORE != 0 {
        slot(slots, number)[NAME_BYTES..].copy_from_slice(value);
        queues.resource(number)[resource::VALID] = 1;
    } else if flags & INVALIDATE != 0 {
        queues.resource(number)[resource::VALID] = 0;
    }
}

fn slot(slots: &mut [u8], number: u32) -> &mut Slot {
    &mut slots.as_chunks_mut().0[number as usize - 1]
}

/// Frees a resource left empty, or sweeps it.
fn free_or_sweep(queues: &mut Queues, slots: &mut [u8], number: u32) {
    if queues.is_empty(number) {
        queues.free_resource(number);
        slot(slots, number).fill(0);
    } else {
        queues.sweep(number);
    }
}

/// Fresh tables, whatever they hold before.
pub fn start(words: &mut [u32], slots: &mut [u8], resources: u32, locks: u32) -> Result<(), Refused> {
    let (r, l) = (resources as usize, locks as usize);
    demand(sizes_allowed(r, l) && words.len() == words_for(r, l) && slots.len() == slots_for(r), 2)?;
    words.fill(0);
    slots.fill(0);
    words[head::RESOURCES] = resources;
    words[head::LOCKS] = locks;
    words[head::FREE_RESOURCE] = 1;
    words[head::FREE_LOCK] = 1;
    let queues = Queues::cut(words);
    let up_to = |most: u32| (2..=most).chain([0]);
    queues.resources.iter_mut().zip(up_to(resources)).for_each(|(record, next)| record[resource::NEXT] = next);
    queues.locks.iter_mut().zip(up_to(locks)).for_each(|(record, next)| record[lock::HOME] = next);
    Ok(())
}

/// A new lock on a name: granted (1) or waiting (2), and its number.
pub fn request(words: &mut [u32], slots: &mut [u8], client: u32, mode: u32, flags: u32, name: &[u8]) -> Result<(u32, u32), Refused> {
    let records = Records::cut(words, slots).filter(Records::sound).ok_or(1_u32)?;
    check_client(client)?;
    check_mode(mode)?;
    check_flags(flags, DONT_QUEUE)?;
    check_name(name)?;
    let known = find(&records, name);
    demand(known != 0 || records.head[head::FREE_RESOURCE] != 0, 11)?;
    demand(records.head[head::FREE_LOCK] != 0, 12)?;
    let mut queues = Queues::cut(words);
    let fits = known == 0 || queues.fits(known, mode, None);
    let granted = known == 0 || fits && nobody_ahead(queues.resource(known), mode);
    demand(granted || flags & DONT_QUEUE == 0, 13)?;

    let number = if known != 0 { known } else { new_resource(&mut queues, slots, name) };
    let k = queues.take_lock();
    let mut record = [0; lock::WIDTH];
    record[lock::RESOURCE] = number;
    record[lock::CLIENT] = client;
    if granted {
        record[lock::STATE] = state::GRANTED;
        record[lock::HELD] = mode;
        *queues.lock(k) = record;
        queues.append_home(number, resource::GRANT, k);
        recount(queues.resource(number), None, Some(mode));
        Ok((GRANTED, k))
    } else {
        record[lock::STATE] = state::WAITING;
        record[lock::ASKED] = mode;
        *queues.lock(k) = record;
        queues.queue(number, resource::WAIT, k, fits);
        Ok((WAITS, k))
    }
}

/// Whether a new lock queues behind nobody: no conversion, and none that waits. NL goes past the latter.
#[inline]
fn nobody_ahead(record: &ResourceRecord, mode: u32) -> bool {
    record[resource::CONVERT] == 0 && (mode == NL || record[resource::WAIT] == 0)
}

fn new_resource(queues: &mut Queues, slots: &mut [u8], name: &[u8]) -> u32 {
    let number = queues.take_resource();
    let mut record = [0; resource::WIDTH];
    record[resource::NAME_LENGTH] = name.len() as u32;
    record[resource::VALID] = 1;
    *queues.resource(number) = record;
    slot(slots, number)[..name.len()].copy_from_slice(name);
    number
}

/// A granted lock to another mode: granted (1) or waiting (2).
pub fn convert(words: &mut [u32], slots: &mut [u8], client: u32, k: u32, mode: u32, flags: u32, value: &[u8]) -> Result<u32, Refused> {
    let mut queues = Queues::open(words, slots)?;
    check_client(client)?;
    check_mode(mode)?;
    check_flags(flags, STORE | INVALIDATE | DONT_QUEUE)?;
    check_value(flags, value)?;
    let record = own_granted(queues.locks, client, k)?;
    let (number, held) = (record[lock::RESOURCE], record[lock::HELD]);
    let fits = queues.fits(number, mode, Some(held));
    let in_place = down(held, mode) || fits && queues.resource(number)[resource::CONVERT] == 0;
    demand(in_place || flags & DONT_QUEUE == 0, 13)?;

    if in_place {
        queues.lock(k)[lock::HELD] = mode;
        recount(queues.resource(number), Some(held), Some(mode));
        if held >= PW && mode < held {
            act_on_value(&mut queues, slots, number, flags, value);
        }
        queues.sweep(number);
        Ok(GRANTED)
    } else {
        queues.remove_home(number, resource::GRANT, k);
        let record = queues.lock(k);
        record[lock::STATE] = state::CONVERTING;
        record[lock::ASKED] = mode;
        queues.queue(number, resource::CONVERT, k, fits);
        Ok(WAITS)
    }
}

/// A granted lock is freed.
pub fn release(words: &mut [u32], slots: &mut [u8], client: u32, k: u32, flags: u32, value: &[u8]) -> Result<(), Refused> {
    let mut queues = Queues::open(words, slots)?;
    check_client(client)?;
    check_flags(flags, STORE | INVALIDATE)?;
    check_value(flags, value)?;
    let record = own_granted(queues.locks, client, k)?;
    let (number, held) = (record[lock::RESOURCE], record[lock::HELD]);

    if held >= PW {
        act_on_value(&mut queues, slots, number, flags, value);
    }
    queues.remove_home(number, resource::GRANT, k);
    recount(queues.resource(number), Some(held), None);
    if noticed(queues.lock(k)) {
        queues.remove_notice(k);
    }
    queues.free_lock(k);
    free_or_sweep(&mut queues, slots, number);
    Ok(())
}

/// A blocked lock waits no longer: its conversion (1) or its request (2) is taken back.
pub fn cancel(words: &mut [u32], slots: &[u8], client: u32, k: u32) -> Result<u32, Refused> {
    let mut queues = Queues::open(words, slots)?;
    check_client(client)?;
    let record = own(queues.locks, client, k)?;
    demand(record[lock::COMPLETION] == completion::NONE, 9)?;
    let number = record[lock::RESOURCE];
    let answer = match record[lock::STATE] {
        state::CONVERTING => {
            queues.unconvert(k);
            1
        }
        state::WAITING => {
            queues.remove_home(number, resource::WAIT, k);
            queues.remove_blocked(k);
            queues.free_lock(k);
            2
        }
        _ => return Err(10),
    };
    queues.sweep(number);
    Ok(answer)
}

/// All locks of a client are freed: how many, how many of them blocked, and how many with a completion unread.
pub fn purge(words: &mut [u32], slots: &mut [u8], client: u32) -> Result<(u32, u32, u32), Refused> {
    let mut queues = Queues::open(words, slots)?;
    check_client(client)?;
    let mut touched = [false; MOST_RESOURCES + 1];
    let (mut count, mut blocked, mut unread) = (0, 0, 0);
    for record in queues.locks.iter().filter(|record| record[lock::CLIENT] == client) {
        let number = record[lock::RESOURCE] as usize;
        count += 1;
        blocked += u32::from(matches!(record[lock::STATE], state::CONVERTING | state::WAITING));
        unread += u32::from(record[lock::COMPLETION] != completion::NONE);
        touched[number] = true;
        if let Some(mode) = held_mode(record) {
            recount(&mut queues.resources[number - 1], Some(mode), None);
            if mode >= PW {
                queues.resources[number - 1][resource::VALID] = 0;
            }
        }
    }
    if count == 0 {
        return Ok((0, 0, 0));
    }
    let stood_on = (1..=queues.resources.len() as u32).filter(|number| touched[*number as usize]);
    stood_on.clone().for_each(|number| queues.remove_client_from(number, client));
    queues.remove_client_aside(client);
    for k in 1..=queues.locks.len() as u32 {
        if queues.lock(k)[lock::CLIENT] == client {
            queues.free_lock(k);
        }
    }
    stood_on.for_each(|number| free_or_sweep(&mut queues, slots, number));
    Ok((count, blocked, unread))
}

/// If there is a deadlock, the first lock of the blocked chain that is on one is denied: its number, or 0.
pub fn break_deadlock(words: &mut [u32], slots: &[u8]) -> Result<u32, Refused> {
    let mut queues = Queues::open(words, slots)?;
    let k = deadlock::first(&queues);
    if k == 0 {
        return Ok(0);
    }
    let number = queues.lock(k)[lock::RESOURCE];
    let joins = !noticed(queues.lock(k));
    if queues.lock(k)[lock::STATE] == state::CONVERTING {
        queues.unconvert(k);
        queues.lock(k)[lock::COMPLETION] = completion::CONVERSION_DENIED;
    } else {
        queues.remove_home(number, resource::WAIT, k);
        queues.remove_blocked(k);
        let record = queues.lock(k);
        record[lock::STATE] = state::DENIED;
        record[lock::RESOURCE] = 0;
        record[lock::ASKED] = 0;
        record[lock::COMPLETION] = completion::REQUEST_DENIED;
        queues.append_denied(k);
    }
    if joins {
        queues.append_notice(k);
    }
    queues.sweep(number);
    Ok(k)
}

/// Takes the client's first notice: its completion, lock and mark, or zeros.
pub fn poll(words: &mut [u32], slots: &[u8], client: u32) -> Result<(u32, u32, u32), Refused> {
    let mut queues = Queues::open(words, slots)?;
    check_client(client)?;
    let mut k = queues.head[head::NOTICE];
    while k != 0 && queues.lock(k)[lock::CLIENT] != client {
        k = queues.lock(k)[lock::NOTICE];
    }
    if k == 0 {
        return Ok((completion::NONE, 0, 0));
    }
    queues.remove_notice(k);
    let record = queues.lock(k);
    let (told, mark) = (std::mem::take(&mut record[lock::COMPLETION]), std::mem::take(&mut record[lock::MARK]));
    if told == completion::REQUEST_DENIED {
        queues.remove_denied(k);
        queues.free_lock(k);
    }
    Ok((told, k, mark))
}

/// A client's granted or converting lock, for read and list.
fn own_held<'a>(records: &Records<'a>, client: u32, k: u32) -> Result<&'a LockRecord, Refused> {
    check_client(client)?;
    let record = own(records.locks, client, k)?;
    demand(matches!(record[lock::STATE], state::GRANTED | state::CONVERTING), 10)?;
    Ok(record)
}

/// The value block of a lock's resource, and whether it is valid.
pub fn read(words: &[u32], slots: &[u8], client: u32, k: u32) -> Result<(Value, bool), Refused> {
    let records = Records::cut(words, slots).filter(Records::sound).ok_or(1_u32)?;
    let at = own_held(&records, client, k)?[lock::RESOURCE] as usize - 1;
    let mut value = [0; VALUE_BYTES];
    value.copy_from_slice(&records.slots[at][NAME_BYTES..]);
    Ok((value, records.resources[at][resource::VALID] == 1))
}

/// The locks of a lock's resource, five words each (number, client, state, held, asked), as many as fit, and how many there are.
pub fn list(words: &[u32], slots: &[u8], client: u32, k: u32, entries: &mut [[u32; 5]]) -> Result<u32, Refused> {
    let records = Records::cut(words, slots).filter(Records::sound).ok_or(1_u32)?;
    let number = own_held(&records, client, k)?[lock::RESOURCE] as usize;
    let mut lent = entries.iter_mut();
    let mut count = 0;
    for chain in resource::GRANT..=resource::WAIT {
        let mut at = records.resources[number - 1][chain];
        while at != 0 {
            let record = &records.locks[at as usize - 1];
            count += 1;
            if let Some(entry) = lent.next() {
                *entry = [at, record[lock::CLIENT], record[lock::STATE], record[lock::HELD], record[lock::ASKED]];
            }
            at = record[lock::HOME];
        }
    }
    Ok(count)
}
