//! The entries over lent tables: the state is read back from them (refusal 1 if they aren't sound), the call made on it, and the new state
//! written out. A refused call writes nothing.

use crate::layout::{self, Value, WORD_BYTES, header};
use crate::{Answer, Entry, Polled, Purged, Refused, State};

fn state_of(words: &[u32], slots: &[u8]) -> Result<State, Refused> {
    State::from_tables(words, slots).ok_or(Refused::UNSOUND)
}

/// Makes a call that may change the tables.
fn change<T>(words: &mut [u32], slots: &mut [u8], call: impl FnOnce(&mut State) -> Result<T, Refused>) -> Result<T, Refused> {
    let mut state = state_of(words, slots)?;
    let answer = call(&mut state)?;
    write(&state, words, slots);
    Ok(answer)
}

fn write(state: &State, words: &mut [u32], slots: &mut [u8]) {
    let (new_words, new_slots) = state.to_tables();
    words.copy_from_slice(&new_words);
    slots.copy_from_slice(&new_slots);
}

/// The tables of an image, sound or not: words little-endian, then slots, of the lengths that its own R and L give. None if it is too short
/// or its length isn't theirs.
fn image_tables(image: &[u8]) -> Option<(Vec<u32>, Vec<u8>)> {
    let (bytes, _) = image.as_chunks::<WORD_BYTES>();
    let word = |at: usize| bytes.get(at).map(|word| u32::from_le_bytes(*word));
    let (resources, locks) = (word(header::RESOURCES)?, word(header::LOCKS)?);
    layout::sizes_allowed(resources, locks).then_some(())?;
    let words = (0..layout::words(resources, locks)).map(word).collect::<Option<Vec<u32>>>()?;
    let slots = image.get(layout::image(words.len(), 0)..)?.to_vec();
    (slots.len() == layout::slots(resources)).then_some((words, slots))
}

fn state_of_image(image: &[u8]) -> Result<State, Refused> {
    let (words, slots) = image_tables(image).ok_or(Refused::UNSOUND)?;
    state_of(&words, &slots)
}

/// Fresh tables, whatever they hold before.
pub fn start(words: &mut [u32], slots: &mut [u8], resources: u32, locks: u32) -> Result<(), Refused> {
    let state = State::start(resources, locks, words.len(), slots.len())?;
    write(&state, words, slots);
    Ok(())
}

/// A new lock on a name.
pub fn request(words: &mut [u32], slots: &mut [u8], client: u32, mode: u32, flags: u32, name: &[u8]) -> Result<(Answer, u32), Refused> {
    change(words, slots, |state| state.request(client, mode, flags, name))
}

/// A granted lock to another mode.
pub fn convert(
    words: &mut [u32],
    slots: &mut [u8],
    client: u32,
    lock: u32,
    mode: u32,
    flags: u32,
    value: &[u8],
) -> Result<Answer, Refused> {
    change(words, slots, |state| state.convert(client, lock, mode, flags, value))
}

/// A granted lock is freed.
pub fn release(words: &mut [u32], slots: &mut [u8], client: u32, lock: u32, flags: u32, value: &[u8]) -> Result<(), Refused> {
    change(words, slots, |state| state.release(client, lock, flags, value))
}

/// A blocked lock waits no longer.
pub fn cancel(words: &mut [u32], slots: &mut [u8], client: u32, lock: u32) -> Result<u32, Refused> {
    change(words, slots, |state| state.cancel(client, lock))
}

/// All locks of a client are freed.
pub fn purge(words: &mut [u32], slots: &mut [u8], client: u32) -> Result<Purged, Refused> {
    change(words, slots, |state| state.purge(client))
}

/// A deadlock, if there is one, loses its first blocked lock.
pub fn break_deadlock(words: &mut [u32], slots: &mut [u8]) -> Result<u32, Refused> {
    change(words, slots, |state| Ok(state.break_deadlock()))
}

/// Takes the client's first notice.
pub fn poll(words: &mut [u32], slots: &mut [u8], client: u32) -> Result<Polled, Refused> {
    change(words, slots, |state| state.poll(client))
}

/// The value block of a lock's resource, and whether it is valid.
pub fn read(words: &[u32], slots: &[u8], client: u32, lock: u32) -> Result<(Value, bool), Refused> {
    state_of(words, slots)?.read(client, lock)
}

/// The locks of a lock's resource into a lent list, as many as fit, and how many there are.
pub fn list(words: &[u32], slots: &[u8], client: u32, lock: u32, entries: &mut [Entry]) -> Result<u32, Refused> {
    let all = state_of(words, slots)?.list(client, lock)?;
    entries.iter_mut().zip(&all).for_each(|(lent, entry)| *lent = *entry);
    Ok(all.len() as u32)
}

/// The tables as bytes.
pub fn image(words: &[u32], slots: &[u8], area: &mut [u8]) -> Result<(), Refused> {
    state_of(words, slots)?;
    let bytes: Vec<u8> = words.iter().flat_map(|word| word.to_le_bytes()).chain(slots.iter().copied()).collect();
    if area.len() != bytes.len() {
        return Err(Refused::LENGTHS);
    }
    area.copy_from_slice(&bytes);
    Ok(())
}

/// The tables of an image.
pub fn load(image: &[u8], words: &mut [u32], slots: &mut [u8]) -> Result<(), Refused> {
    let (new_words, new_slots) = state_of_image(image)?.to_tables();
    if words.len() != new_words.len() || slots.len() != new_slots.len() {
        return Err(Refused::LENGTHS);
    }
    words.copy_from_slice(&new_words);
    slots.copy_from_slice(&new_slots);
    Ok(())
}

/// The client that holds EX on a name in an image, or 0.
pub fn holder(image: &[u8], name: &[u8]) -> Result<u32, Refused> {
    state_of_image(image)?.holder(name)
}

/// Whether tables are sound.
pub fn sound(words: &[u32], slots: &[u8]) -> bool {
    State::from_tables(words, slots).is_some()
}
