//! What is compared: lock managers over lent tables, with the answers of the C interface.

use flat::Refused;
use model::layout::Value;

/// The lent tables of one manager.
#[derive(Clone, Debug, PartialEq, Eq)]
pub struct Tables {
    pub words: Vec<u32>,
    pub slots: Vec<u8>,
}

impl Tables {
    /// Tables of some lengths that hold nothing sensible.
    pub fn junk(words: usize, slots: usize) -> Tables {
        Tables { words: vec![0xa5a5_a5a5; words], slots: vec![0x5a; slots] }
    }

    /// The bytes of an image of them, sound or not.
    pub fn bytes(&self) -> Vec<u8> {
        self.words.iter().flat_map(|word| word.to_le_bytes()).chain(self.slots.iter().copied()).collect()
    }
}

/// A lock manager. Answers are those of zamgyorud.h: a refusal has the highest bit set and its number below; otherwise the result is in
/// bits 0 to 15, the lock in bits 16 to 31 and the mark in bits 32 to 47. Purge's three counts stand in these places. A call may change
/// only what its `&mut` arguments lend.
pub trait Manager {
    fn start(&self, tables: &mut Tables, resources: u32, locks: u32) -> u64;
    fn request(&self, tables: &mut Tables, client: u32, mode: u32, flags: u32, name: &[u8]) -> u64;
    fn convert(&self, tables: &mut Tables, client: u32, lock: u32, mode: u32, flags: u32, value: &[u8]) -> u64;
    fn release(&self, tables: &mut Tables, client: u32, lock: u32, flags: u32, value: &[u8]) -> u64;
    fn cancel(&self, tables: &mut Tables, client: u32, lock: u32) -> u64;
    fn purge(&self, tables: &mut Tables, client: u32) -> u64;
    fn break_deadlock(&self, tables: &mut Tables) -> u64;
    fn poll(&self, tables: &mut Tables, client: u32) -> u64;
    /// The value goes into an area of any length, as much as fits.
    fn read(&self, tables: &Tables, client: u32, lock: u32, value: &mut [u8]) -> u64;
    fn list(&self, tables: &Tables, client: u32, lock: u32, entries: &mut [Listed]) -> u64;
    fn image(&self, tables: &Tables, area: &mut [u8]) -> u64;
    fn load(&self, image: &[u8], tables: &mut Tables) -> u64;
    fn sound(&self, tables: &Tables) -> u32;
    /// A refusal is 256 plus its number.
    fn holder(&self, image: &[u8], name: &[u8]) -> u32;
}

/// A lock as list gives it: number, client, state, held, asked.
pub type Listed = [u32; 5];

/// The highest bit of an answer: it is a refusal.
const REFUSED: u64 = 1 << 63;

/// The number of the refusal in an answer, if it is one.
pub fn refusal(answer: u64) -> Option<u32> {
    (answer & REFUSED != 0).then_some(answer as u32)
}

/// A refused call's answer.
pub fn refused(number: u32) -> u64 {
    REFUSED | u64::from(number)
}

/// An accepted call's answer.
pub fn accepted(result: u32, lock: u32, mark: u32) -> u64 {
    u64::from(mark) << 32 | u64::from(lock) << 16 | u64::from(result)
}

/// The result in an accepted call's answer.
pub fn result(answer: u64) -> u32 {
    u32::from(answer as u16)
}

/// The lock in an accepted call's answer.
pub fn lock(answer: u64) -> u32 {
    result(answer >> 16)
}

/// The mark in an accepted call's answer.
pub fn mark(answer: u64) -> u32 {
    result(answer >> 32)
}

/// The second count in an accepted purge's answer: locks that were blocked.
pub fn purged_blocked(answer: u64) -> u32 {
    lock(answer)
}

/// The third count in an accepted purge's answer: locks with a completion unread.
pub fn purged_unread(answer: u64) -> u32 {
    mark(answer)
}

/// An answer of a result alone.
fn one(answer: Result<u32, Refused>) -> u64 {
    two(answer.map(|result| (result, 0)))
}

/// An answer of a result and a lock.
fn two(answer: Result<(u32, u32), Refused>) -> u64 {
    three(answer.map(|(result, lock)| (result, lock, 0)))
}

/// An answer of a result, a lock and a mark, or of three counts.
fn three(answer: Result<(u32, u32, u32), Refused>) -> u64 {
    answer.map_or_else(refused, |(result, lock, mark)| accepted(result, lock, mark))
}

/// Break's answer: the denied lock is its result and its lock.
fn denied(answer: Result<u32, Refused>) -> u64 {
    two(answer.map(|lock| (lock, lock)))
}

/// Puts what read gives into an area, and gives its answer. A refused read leaves the area as it is.
fn put_value(answer: Result<(Value, bool), Refused>, area: &mut [u8]) -> u64 {
    one(answer.map(|(value, valid)| {
        area.iter_mut().zip(value).for_each(|(byte, new)| *byte = new);
        u32::from(valid)
    }))
}

/// Makes a call that is lent entries of a manager's own type.
fn with_entries<E>(lent: &mut [Listed], entry: fn(Listed) -> E, words: fn(&E) -> Listed, call: impl FnOnce(&mut [E]) -> u64) -> u64 {
    let mut entries: Vec<E> = lent.iter().map(|words| entry(*words)).collect();
    let answer = call(&mut entries);
    lent.iter_mut().zip(&entries).for_each(|(old, new)| *old = words(new));
    answer
}

fn holder_answer(answer: Result<u32, Refused>) -> u32 {
    answer.unwrap_or_else(|number| 256 + number)
}

/// The independent model.
pub struct Model;

impl Manager for Model {
    fn start(&self, t: &mut Tables, resources: u32, locks: u32) -> u64 {
        let answer = model::entries::start(&mut t.words, &mut t.slots, resources, locks);
        one(answer.map(|()| 0).map_err(|refused| refused.0))
    }

    fn request(&self, t: &mut Tables, client: u32, mode: u32, flags: u32, name: &[u8]) -> u64 {
        let answer = model::entries::request(&mut t.words, &mut t.slots, client, mode, flags, name);
        two(answer.map(|(answer, lock)| (answer.number(), lock)).map_err(|refused| refused.0))
    }

    fn convert(&self, t: &mut Tables, client: u32, lock: u32, mode: u32, flags: u32, value: &[u8]) -> u64 {
        let answer = model::entries::convert(&mut t.words, &mut t.slots, client, lock, mode, flags, value);
        one(answer.map(|answer| answer.number()).map_err(|refused| refused.0))
    }

    fn release(&self, t: &mut Tables, client: u32, lock: u32, flags: u32, value: &[u8]) -> u64 {
        let answer = model::entries::release(&mut t.words, &mut t.slots, client, lock, flags, value);
        one(answer.map(|()| 0).map_err(|refused| refused.0))
    }

    fn cancel(&self, t: &mut Tables, client: u32, lock: u32) -> u64 {
        one(model::entries::cancel(&mut t.words, &mut t.slots, client, lock).map_err(|refused| refused.0))
    }

    fn purge(&self, t: &mut Tables, client: u32) -> u64 {
        let answer = model::entries::purge(&mut t.words, &mut t.slots, client);
        three(answer.map(|purged| (purged.locks, purged.blocked, purged.unread)).map_err(|refused| refused.0))
    }

    fn break_deadlock(&self, t: &mut Tables) -> u64 {
        denied(model::entries::break_deadlock(&mut t.words, &mut t.slots).map_err(|refused| refused.0))
    }

    fn poll(&self, t: &mut Tables, client: u32) -> u64 {
        let answer = model::entries::poll(&mut t.words, &mut t.slots, client);
        three(answer.map(|polled| (polled.completion, polled.lock, polled.mark)).map_err(|refused| refused.0))
    }

    fn read(&self, t: &Tables, client: u32, lock: u32, value: &mut [u8]) -> u64 {
        put_value(model::entries::read(&t.words, &t.slots, client, lock).map_err(|refused| refused.0), value)
    }

    fn list(&self, t: &Tables, client: u32, lock: u32, entries: &mut [Listed]) -> u64 {
        let entry = |[number, client, state, held, asked]: Listed| model::Entry { number, client, state, held, asked };
        let words = |e: &model::Entry| [e.number, e.client, e.state, e.held, e.asked];
        with_entries(entries, entry, words, |list| {
            one(model::entries::list(&t.words, &t.slots, client, lock, list).map_err(|refused| refused.0))
        })
    }

    fn image(&self, t: &Tables, area: &mut [u8]) -> u64 {
        one(model::entries::image(&t.words, &t.slots, area).map(|()| 0).map_err(|refused| refused.0))
    }

    fn load(&self, image: &[u8], t: &mut Tables) -> u64 {
        let answer = model::entries::load(image, &mut t.words, &mut t.slots);
        one(answer.map(|()| 0).map_err(|refused| refused.0))
    }

    fn sound(&self, t: &Tables) -> u32 {
        u32::from(model::entries::sound(&t.words, &t.slots))
    }

    fn holder(&self, image: &[u8], name: &[u8]) -> u32 {
        holder_answer(model::entries::holder(image, name).map_err(|refused| refused.0))
    }
}

/// The plain manager that works on the tables in place.
pub struct Flat;

impl Manager for Flat {
    fn start(&self, t: &mut Tables, resources: u32, locks: u32) -> u64 {
        one(flat::start(&mut t.words, &mut t.slots, resources, locks).map(|()| 0))
    }

    fn request(&self, t: &mut Tables, client: u32, mode: u32, flags: u32, name: &[u8]) -> u64 {
        two(flat::request(&mut t.words, &mut t.slots, client, mode, flags, name))
    }

    fn convert(&self, t: &mut Tables, client: u32, lock: u32, mode: u32, flags: u32, value: &[u8]) -> u64 {
        one(flat::convert(&mut t.words, &mut t.slots, client, lock, mode, flags, value))
    }

    fn release(&self, t: &mut Tables, client: u32, lock: u32, flags: u32, value: &[u8]) -> u64 {
        one(flat::release(&mut t.words, &mut t.slots, client, lock, flags, value).map(|()| 0))
    }

    fn cancel(&self, t: &mut Tables, client: u32, lock: u32) -> u64 {
        one(flat::cancel(&mut t.words, &t.slots, client, lock))
    }

    fn purge(&self, t: &mut Tables, client: u32) -> u64 {
        three(flat::purge(&mut t.words, &mut t.slots, client))
    }

    fn break_deadlock(&self, t: &mut Tables) -> u64 {
        denied(flat::break_deadlock(&mut t.words, &t.slots))
    }

    fn poll(&self, t: &mut Tables, client: u32) -> u64 {
        three(flat::poll(&mut t.words, &t.slots, client))
    }

    fn read(&self, t: &Tables, client: u32, lock: u32, value: &mut [u8]) -> u64 {
        put_value(flat::read(&t.words, &t.slots, client, lock), value)
    }

    fn list(&self, t: &Tables, client: u32, lock: u32, entries: &mut [Listed]) -> u64 {
        one(flat::list(&t.words, &t.slots, client, lock, entries))
    }

    fn image(&self, t: &Tables, area: &mut [u8]) -> u64 {
        one(flat::image(&t.words, &t.slots, area).map(|()| 0))
    }

    fn load(&self, image: &[u8], t: &mut Tables) -> u64 {
        one(flat::load(image, &mut t.words, &mut t.slots).map(|()| 0))
    }

    fn sound(&self, t: &Tables) -> u32 {
        u32::from(flat::sound(&t.words, &t.slots))
    }

    fn holder(&self, image: &[u8], name: &[u8]) -> u32 {
        holder_answer(flat::holder(image, name))
    }
}

/// The compiled library, through the wrapper.
#[cfg(feature = "library")]
pub struct Library;

#[cfg(feature = "library")]
impl Manager for Library {
    fn start(&self, t: &mut Tables, resources: u32, locks: u32) -> u64 {
        zamgyorud::raw::start(&mut t.words, &mut t.slots, resources, locks).bits
    }

    fn request(&self, t: &mut Tables, client: u32, mode: u32, flags: u32, name: &[u8]) -> u64 {
        zamgyorud::raw::request(&mut t.words, &mut t.slots, client, mode, flags, name).bits
    }

    fn convert(&self, t: &mut Tables, client: u32, lock: u32, mode: u32, flags: u32, value: &[u8]) -> u64 {
        zamgyorud::raw::convert(&mut t.words, &mut t.slots, client, lock, mode, flags, value).bits
    }

    fn release(&self, t: &mut Tables, client: u32, lock: u32, flags: u32, value: &[u8]) -> u64 {
        zamgyorud::raw::release(&mut t.words, &mut t.slots, client, lock, flags, value).bits
    }

    fn cancel(&self, t: &mut Tables, client: u32, lock: u32) -> u64 {
        zamgyorud::raw::cancel(&mut t.words, &t.slots, client, lock).bits
    }

    fn purge(&self, t: &mut Tables, client: u32) -> u64 {
        zamgyorud::raw::purge(&mut t.words, &mut t.slots, client).bits
    }

    fn break_deadlock(&self, t: &mut Tables) -> u64 {
        zamgyorud::raw::break_deadlock(&mut t.words, &t.slots).bits
    }

    fn poll(&self, t: &mut Tables, client: u32) -> u64 {
        zamgyorud::raw::poll(&mut t.words, &t.slots, client).bits
    }

    fn read(&self, t: &Tables, client: u32, lock: u32, value: &mut [u8]) -> u64 {
        zamgyorud::raw::read(&t.words, &t.slots, client, lock, value).bits
    }

    fn list(&self, t: &Tables, client: u32, lock: u32, entries: &mut [Listed]) -> u64 {
        let entry = |[number, client, state, held, asked]: Listed| zamgyorud::raw::Entry { number, client, state, held, asked };
        let words = |e: &zamgyorud::raw::Entry| [e.number, e.client, e.state, e.held, e.asked];
        with_entries(entries, entry, words, |list| zamgyorud::raw::list(&t.words, &t.slots, client, lock, list).bits)
    }

    fn image(&self, t: &Tables, area: &mut [u8]) -> u64 {
        zamgyorud::raw::image(&t.words, &t.slots, area).bits
    }

    fn load(&self, image: &[u8], t: &mut Tables) -> u64 {
        zamgyorud::raw::load(image, &mut t.words, &mut t.slots).bits
    }

    fn sound(&self, t: &Tables) -> u32 {
        zamgyorud::raw::sound(&t.words, &t.slots)
    }

    fn holder(&self, image: &[u8], name: &[u8]) -> u32 {
        zamgyorud::raw::holder(image, name).bits
    }
}
