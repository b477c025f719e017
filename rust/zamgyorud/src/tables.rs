//! Tables that own their words and slots, and the calls on them.

use crate::answers::{Cancelled, Completion, Entry, Flags, Mode, Notice, Outcome, Purged, Queue, Refusal, Value};
use crate::layout::{self, MOST_LOCKS, VALUE_BYTES, WORD_BYTES, header};
use crate::raw;

/// A lock manager's tables.
///
/// Every call is made by the proved library, which first checks that the tables are sound. A refused call changes nothing.
#[derive(Clone, Debug, PartialEq, Eq)]
pub struct Tables {
    words: Vec<u32>,
    slots: Vec<u8>,
}

/// The lengths in words and slot bytes for numbers of records, if these are in range.
fn lengths(resources: u32, locks: u32) -> Option<(usize, usize)> {
    layout::sizes_allowed(resources, locks).then(|| (layout::words(resources, locks), layout::slots(resources)))
}

/// What can't be, by the library's contract.
fn impossible(answer: u32) -> ! {
    panic!("the library answered {answer}, which its contract excludes")
}

/// An accepted call's answer, or the refusal of a number other than 0.
fn unless_refused<T>(refusal: u32, answer: T) -> Result<T, Refusal> {
    match refusal {
        0 => Ok(answer),
        number => Err(Refusal::from_number(number).unwrap_or_else(|| impossible(number))),
    }
}

/// A call's answer, if it was accepted.
fn accepted(answer: raw::Answer) -> Result<raw::Answer, Refusal> {
    unless_refused(answer.refusal(), answer)
}

/// A call's result.
fn number(answer: raw::Answer) -> Result<u32, Refusal> {
    accepted(answer).map(raw::Answer::result)
}

fn outcome(number: u32) -> Outcome {
    match number {
        1 => Outcome::Granted,
        2 => Outcome::Waiting,
        _ => impossible(number),
    }
}

fn mode(number: u32) -> Mode {
    Mode::from_number(number).unwrap_or_else(|| impossible(number))
}

/// The mode of a mark. No mark is NL, so 0 is none.
pub(crate) fn mark(number: u32) -> Option<Mode> {
    (number != 0).then(|| mode(number))
}

fn completion(number: u32) -> Option<Completion> {
    match number {
        0 => None,
        1 => Some(Completion::Granted),
        2 => Some(Completion::RequestDenied),
        3 => Some(Completion::ConversionDenied),
        _ => impossible(number),
    }
}

/// A notice from what poll answers: lock 0 says that there is none.
fn notice(answer: raw::Answer) -> Option<Notice> {
    (answer.lock() != 0).then(|| Notice { lock: answer.lock(), completion: completion(answer.result()), mark: mark(answer.mark()) })
}

/// What a purge freed, from its three counts.
fn purged(answer: raw::Answer) -> Purged {
    Purged { locks: answer.result(), blocked: answer.purged_blocked(), unread: answer.purged_unread() }
}

/// A lock from the numbers of a list's entry.
fn entry(raw::Entry { number, client, state, held, asked }: raw::Entry) -> Entry {
    let queue = match state {
        1 => Queue::Granted,
        2 => Queue::Converting,
        3 => Queue::Waiting,
        _ => impossible(state),
    };
    Entry {
        lock: number,
        client,
        queue,
        held: (queue != Queue::Waiting).then(|| mode(held)),
        asked: (queue != Queue::Granted).then(|| mode(asked)),
    }
}

impl Tables {
    /// Fresh tables with room for so many resources (1 to 256) and locks (1 to 1,024).
    ///
    /// ```
    /// # use zamgyorud::{Refusal, Tables};
    /// assert!(Tables::start(4, 8).is_ok());
    /// assert_eq!(Tables::start(0, 8), Err(Refusal::Sizes));
    /// ```
    pub fn start(resources: u32, locks: u32) -> Result<Tables, Refusal> {
        // Numbers out of range get no tables, and the library says so.
        let mut tables = Tables::zeros(lengths(resources, locks).unwrap_or_default());
        number(raw::start(&mut tables.words, &mut tables.slots, resources, locks))?;
        Ok(tables)
    }

    fn zeros((words, slots): (usize, usize)) -> Tables {
        Tables { words: vec![0; words], slots: vec![0; slots] }
    }

    /// Tables of given words and slots, as [`Tables::into_parts`] gives them. Words and slots that aren't sound tables are refused.
    ///
    /// ```
    /// # use zamgyorud::{Refusal, Tables, layout};
    /// # fn main() -> Result<(), Refusal> {
    /// let (mut words, slots) = Tables::start(4, 8)?.into_parts();
    /// assert_eq!(Tables::from_parts(words.clone(), slots.clone()), Tables::start(4, 8));
    /// words[layout::header::ZERO] = 1;
    /// assert_eq!(Tables::from_parts(words, slots), Err(Refusal::Unsound));
    /// # Ok(())
    /// # }
    /// ```
    pub fn from_parts(words: Vec<u32>, slots: Vec<u8>) -> Result<Tables, Refusal> {
        let tables = Tables::from_parts_unchecked(words, slots);
        if tables.is_sound() { Ok(tables) } else { Err(Refusal::Unsound) }
    }

    /// Tables of words and slots of any content, for instance to try how a program takes [`Refusal::Unsound`]. No call on unsound tables does
    /// harm: each is refused.
    pub fn from_parts_unchecked(words: Vec<u32>, slots: Vec<u8>) -> Tables {
        Tables { words, slots }
    }

    /// The words and the slots, to be kept elsewhere or lent to [`raw`].
    pub fn into_parts(self) -> (Vec<u32>, Vec<u8>) {
        (self.words, self.slots)
    }

    /// The words.
    pub fn words(&self) -> &[u32] {
        &self.words
    }

    /// The slots.
    pub fn slots(&self) -> &[u8] {
        &self.slots
    }

    /// Whether the tables are sound.
    pub fn is_sound(&self) -> bool {
        raw::sound(&self.words, &self.slots) == 1
    }

    /// A lock of a mode on a name: whether it is granted, and its number.
    ///
    /// It is granted at once only if no conversion and no request waits on the name and its mode is compatible with every mode held there. NL, which
    /// is compatible with every mode, passes waiting requests: it waits only where a conversion does. Requests that wait are granted in the order in
    /// which they came.
    ///
    /// ```
    /// # use zamgyorud::{Flags, Mode, Outcome, Refusal, Tables};
    /// # fn main() -> Result<(), Refusal> {
    /// let mut tables = Tables::start(4, 8)?;
    /// assert_eq!(tables.request(1, Mode::Pr, Flags::NONE, b"pool")?, (Outcome::Granted, 1));
    /// assert_eq!(tables.request(2, Mode::Ex, Flags::NONE, b"pool")?, (Outcome::Waiting, 2));
    /// // PR goes together with PR, but lock 2 waits already.
    /// assert_eq!(tables.request(3, Mode::Pr, Flags::NONE, b"pool")?, (Outcome::Waiting, 3));
    /// assert_eq!(tables.request(4, Mode::Pr, Flags::NO_QUEUE, b"pool"), Err(Refusal::Blocks));
    /// # Ok(())
    /// # }
    /// ```
    pub fn request(&mut self, client: u32, mode: Mode, flags: Flags, name: &[u8]) -> Result<(Outcome, u32), Refusal> {
        let answer = raw::request(&mut self.words, &mut self.slots, client, mode.number(), flags.bits(), name);
        accepted(answer).map(|answer| (outcome(answer.result()), answer.lock()))
    }

    /// A granted lock to another mode; this goes before requests that wait. The value is looked at only with [`Flags::STORE_VALUE`], and must then
    /// have 32 bytes.
    ///
    /// ```
    /// # use zamgyorud::{Flags, Mode, Outcome, Refusal, Tables};
    /// # fn main() -> Result<(), Refusal> {
    /// let mut tables = Tables::start(4, 8)?;
    /// let (_, lock) = tables.request(1, Mode::Ex, Flags::NONE, b"pool")?;
    /// assert_eq!(tables.convert(1, lock, Mode::Pr, Flags::STORE_VALUE, &[7; 32])?, Outcome::Granted);
    /// assert_eq!(tables.read(1, lock)?.bytes, [7; 32]);
    /// # Ok(())
    /// # }
    /// ```
    pub fn convert(&mut self, client: u32, lock: u32, mode: Mode, flags: Flags, value: &[u8]) -> Result<Outcome, Refusal> {
        let answer = raw::convert(&mut self.words, &mut self.slots, client, lock, mode.number(), flags.bits(), value);
        number(answer).map(outcome)
    }

    /// Frees a granted lock. The value is looked at only with [`Flags::STORE_VALUE`], and must then have 32 bytes.
    pub fn release(&mut self, client: u32, lock: u32, flags: Flags, value: &[u8]) -> Result<(), Refusal> {
        number(raw::release(&mut self.words, &mut self.slots, client, lock, flags.bits(), value)).map(drop)
    }

    /// Takes back the conversion or request of a blocked lock.
    pub fn cancel(&mut self, client: u32, lock: u32) -> Result<Cancelled, Refusal> {
        number(raw::cancel(&mut self.words, &self.slots, client, lock)).map(|answer| match answer {
            1 => Cancelled::Conversion,
            2 => Cancelled::Request,
            _ => impossible(answer),
        })
    }

    /// Frees all locks of a client: how many, how many of them were blocked, and how many had a completion unread.
    ///
    /// Each call that answers [`Outcome::Waiting`] is heard of once: by a poll with a completion, by an accepted cancel, or in one of the
    /// last two numbers. Until then it is open.
    ///
    /// ```
    /// # use zamgyorud::{Completion, Flags, Mode, Notice, Purged, Refusal, Tables};
    /// # fn main() -> Result<(), Refusal> {
    /// let mut tables = Tables::start(4, 8)?;
    /// for (client, name) in [(1, b"vip-7"), (1, b"vip-8"), (2, b"vip-7"), (2, b"vip-8"), (3, b"vip-7")] {
    ///     tables.request(client, Mode::Ex, Flags::NONE, name)?;
    /// }
    /// // Client 2 gets vip-7, and dies before it polls that. It still waits for vip-8. So two of its calls are open.
    /// tables.release(1, 1, Flags::NONE, b"")?;
    /// assert_eq!(tables.purge(2)?, Purged { locks: 2, blocked: 1, unread: 1 });
    /// // Now client 3 has vip-7.
    /// assert_eq!(tables.poll(3)?, Some(Notice { lock: 5, completion: Some(Completion::Granted), mark: None }));
    /// assert_eq!(tables.poll(3)?, None);
    /// # Ok(())
    /// # }
    /// ```
    pub fn purge(&mut self, client: u32) -> Result<Purged, Refusal> {
        accepted(raw::purge(&mut self.words, &mut self.slots, client)).map(purged)
    }

    /// If there is a deadlock, denies the one of its requests that has been blocked the longest: its lock.
    ///
    /// ```
    /// # use zamgyorud::{Flags, Mode, Refusal, Tables};
    /// # fn main() -> Result<(), Refusal> {
    /// let mut tables = Tables::start(4, 8)?;
    /// tables.request(1, Mode::Ex, Flags::NONE, b"A")?;
    /// tables.request(2, Mode::Ex, Flags::NONE, b"B")?;
    /// tables.request(1, Mode::Ex, Flags::NONE, b"B")?;
    /// tables.request(2, Mode::Ex, Flags::NONE, b"A")?;
    /// assert_eq!(tables.break_deadlock()?, Some(3));
    /// assert_eq!(tables.break_deadlock()?, None);
    /// # Ok(())
    /// # }
    /// ```
    pub fn break_deadlock(&mut self) -> Result<Option<u32>, Refusal> {
        number(raw::break_deadlock(&mut self.words, &self.slots)).map(|lock| (lock != 0).then_some(lock))
    }

    /// Takes a client's first notice, if it has one. A client that holds a lock for long polls now and then, to hear that it is in the way.
    ///
    /// ```
    /// # use zamgyorud::{Completion, Flags, Mode, Notice, Refusal, Tables};
    /// # fn main() -> Result<(), Refusal> {
    /// let mut tables = Tables::start(4, 8)?;
    /// tables.request(1, Mode::Pr, Flags::NONE, b"pool")?;
    /// tables.request(2, Mode::Ex, Flags::NONE, b"pool")?;
    /// // Lock 1 is in the way of somebody who asks for EX. Its client steps down, and the other is granted.
    /// assert_eq!(tables.poll(1)?, Some(Notice { lock: 1, completion: None, mark: Some(Mode::Ex) }));
    /// tables.convert(1, 1, Mode::Nl, Flags::NONE, b"")?;
    /// assert_eq!(tables.poll(2)?, Some(Notice { lock: 2, completion: Some(Completion::Granted), mark: None }));
    /// # Ok(())
    /// # }
    /// ```
    pub fn poll(&mut self, client: u32) -> Result<Option<Notice>, Refusal> {
        accepted(raw::poll(&mut self.words, &self.slots, client)).map(notice)
    }

    /// The value block of a granted or converting lock's resource.
    pub fn read(&self, client: u32, lock: u32) -> Result<Value, Refusal> {
        let mut bytes = [0; VALUE_BYTES];
        let valid = number(raw::read(&self.words, &self.slots, client, lock, &mut bytes))?;
        Ok(Value { bytes, valid: valid == 1 })
    }

    /// The locks on a granted or converting lock's resource, in the order of the grant, convert and wait queues.
    pub fn list(&self, client: u32, lock: u32) -> Result<Vec<Entry>, Refusal> {
        // No resource has more locks than there are; unsound tables are refused, whatever they say.
        let most = self.words.get(header::LOCKS).map_or(0, |locks| (*locks).min(MOST_LOCKS)) as usize;
        let mut entries = vec![raw::Entry::default(); most];
        let count = number(raw::list(&self.words, &self.slots, client, lock, &mut entries))?;
        Ok(entries.into_iter().take(count as usize).map(entry).collect())
    }

    /// The tables as bytes, to be kept or sent.
    ///
    /// ```
    /// # use zamgyorud::{Flags, Mode, Refusal, Tables, holder};
    /// # fn main() -> Result<(), Refusal> {
    /// let mut tables = Tables::start(4, 8)?;
    /// tables.request(1, Mode::Ex, Flags::NONE, b"vip-7")?;
    /// let image = tables.image()?;
    /// assert_eq!(holder(&image, b"vip-7")?, Some(1));
    /// assert_eq!(holder(&image, b"vip-8")?, None);
    /// assert_eq!(Tables::load(&image)?, tables);
    /// # Ok(())
    /// # }
    /// ```
    pub fn image(&self) -> Result<Vec<u8>, Refusal> {
        let mut area = vec![0; layout::image(self.words.len(), self.slots.len())];
        number(raw::image(&self.words, &self.slots, &mut area)).map(|_| area)
    }

    /// The tables of an image.
    pub fn load(image: &[u8]) -> Result<Tables, Refusal> {
        let mut tables = Tables::zeros(lengths_of_image(image).unwrap_or_default());
        tables.load_into(image)?;
        Ok(tables)
    }

    /// The tables of an image, in place of these, which must have the image's sizes.
    pub fn load_into(&mut self, image: &[u8]) -> Result<(), Refusal> {
        number(raw::load(image, &mut self.words, &mut self.slots)).map(drop)
    }
}

/// The lengths of tables that an image's own numbers call for.
fn lengths_of_image(image: &[u8]) -> Option<(usize, usize)> {
    let (words, _) = image.as_chunks::<WORD_BYTES>();
    let word = |at: usize| words.get(at).map(|bytes| u32::from_le_bytes(*bytes));
    lengths(word(header::RESOURCES)?, word(header::LOCKS)?)
}

/// The client that holds EX on a name in an image, if one does.
pub fn holder(image: &[u8], name: &[u8]) -> Result<Option<u32>, Refusal> {
    let held = raw::holder(image, name);
    unless_refused(held.refusal(), held.client()).map(|client| (client != 0).then_some(client))
}
