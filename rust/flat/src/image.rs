//! Images: words little-endian, then slots.

use crate::calls::check_name;
use crate::layout::{Records, WORD_BYTES, head, image_for, lock, resource, sizes_allowed, slots_for, words_for};
use crate::modes::EX;
use crate::queues::find;
use crate::{Refused, sound};

/// Cuts an image into the bytes of its words and its slots, if its length is that of its own R and L.
fn cut(image: &[u8]) -> Option<(&[[u8; WORD_BYTES]], &[u8])> {
    let bytes = image.as_chunks().0;
    let size = |at: usize| bytes.get(at).map(|word| u32::from_le_bytes(*word) as usize);
    let (resources, locks) = (size(head::RESOURCES)?, size(head::LOCKS)?);
    if !sizes_allowed(resources, locks) {
        return None;
    }
    let count = words_for(resources, locks);
    if image.len() != image_for(count, slots_for(resources)) {
        return None;
    }
    Some((&bytes[..count], &image[image_for(count, 0)..]))
}

/// The words and slots of an image of sound tables.
fn sound_image(image: &[u8]) -> Result<(Vec<u32>, &[u8]), Refused> {
    let (bytes, slots) = cut(image).ok_or(1_u32)?;
    let words: Vec<u32> = bytes.iter().map(|word| u32::from_le_bytes(*word)).collect();
    if sound(&words, slots) { Ok((words, slots)) } else { Err(1) }
}

/// The tables as bytes, into an area of just their length.
pub fn image(words: &[u32], slots: &[u8], area: &mut [u8]) -> Result<(), Refused> {
    if !sound(words, slots) {
        return Err(1);
    }
    if area.len() != image_for(words.len(), slots.len()) {
        return Err(14);
    }
    let (for_words, for_slots) = area.split_at_mut(image_for(words.len(), 0));
    for_words.as_chunks_mut().0.iter_mut().zip(words).for_each(|(bytes, word)| *bytes = word.to_le_bytes());
    for_slots.copy_from_slice(slots);
    Ok(())
}

/// The tables of an image, into tables that may hold anything before.
pub fn load(image: &[u8], words: &mut [u32], slots: &mut [u8]) -> Result<(), Refused> {
    let (new_words, new_slots) = sound_image(image)?;
    if words.len() != new_words.len() || slots.len() != new_slots.len() {
        return Err(14);
    }
    words.copy_from_slice(&new_words);
    slots.copy_from_slice(new_slots);
    Ok(())
}

/// The client that holds EX on a name, or 0.
pub fn holder(image: &[u8], name: &[u8]) -> Result<u32, Refused> {
    let (words, slots) = sound_image(image)?;
    check_name(name)?;
    let records = Records::cut(&words, slots).ok_or(1_u32)?;
    let number = find(&records, name);
    if number == 0 {
        return Ok(0);
    }
    for chain in [resource::GRANT, resource::CONVERT] {
        let mut at = records.resources[number as usize - 1][chain];
        while at != 0 {
            let record = &records.locks[at as usize - 1];
            if record[lock::HELD] == EX {
                return Ok(record[lock::CLIENT]);
            }
            at = record[lock::HOME];
        }
    }
    Ok(0)
}
