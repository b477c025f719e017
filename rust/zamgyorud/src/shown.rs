//! Resources and their queues, shown as the guide's figures draw them (2.2 and 2.3.9).

use crate::answers::{Entry, Mode, Queue, Refusal, Value};
use crate::layout::{NAME_BYTES, SLOT_BYTES, header, lock, lock_at, resource, resource_at, slot_at};
use crate::tables::{Tables, mark};
use std::fmt;

/// A lock of a resource in use.
#[derive(Clone, Copy, Debug, PartialEq, Eq)]
pub struct Lock {
    /// What [`Tables::list`] tells of it.
    pub entry: Entry,
    /// Its mark, which its client hasn't polled yet.
    pub mark: Option<Mode>,
}

/// A resource in use: its name, value block and queues.
#[derive(Clone, Debug, PartialEq, Eq)]
pub struct Resource {
    /// The name, 1 to 64 bytes.
    pub name: Vec<u8>,
    /// The value block.
    pub value: Value,
    /// Its locks, in grant, convert, wait order.
    pub locks: Vec<Lock>,
}

impl Tables {
    /// The resources in use, by number. Unsound tables are refused; idle ones have none.
    ///
    /// ```
    /// # use zamgyorud::{Flags, Mode, Refusal, Tables};
    /// # fn main() -> Result<(), Refusal> {
    /// let mut tables = Tables::start(4, 8)?;
    /// assert_eq!(tables.resources()?, []);
    /// tables.request(1, Mode::Ex, Flags::NONE, b"vip-7")?;
    /// assert_eq!(tables.resources()?[0].name, b"vip-7");
    /// # Ok(())
    /// # }
    /// ```
    pub fn resources(&self) -> Result<Vec<Resource>, Refusal> {
        if !self.is_sound() {
            return Err(Refusal::Unsound);
        }
        let used = |number: &u32| self.words()[resource_at(*number, resource::NAME_LENGTH)] != 0;
        Ok((1..=self.words()[header::RESOURCES]).filter(used).map(|number| self.resource(number)).collect())
    }

    /// A resource that is in use in sound tables.
    fn resource(&self, number: u32) -> Resource {
        let word = |field: usize| self.words()[resource_at(number, field)];
        let (name, value) = self.slots()[slot_at(number, 0)..][..SLOT_BYTES].split_at(NAME_BYTES);
        let queues = [(Queue::Granted, resource::GRANT), (Queue::Converting, resource::CONVERT), (Queue::Waiting, resource::WAIT)];
        Resource {
            name: name[..word(resource::NAME_LENGTH) as usize].to_vec(),
            value: Value { bytes: value.try_into().expect("what a slot has after the name's bytes"), valid: word(resource::VALIDITY) == 1 },
            locks: queues.into_iter().flat_map(|(queue, head)| self.chain(queue, word(head))).collect(),
        }
    }

    /// The locks of a queue.
    fn chain(&self, queue: Queue, head: u32) -> impl Iterator<Item = Lock> + '_ {
        let word = move |lock: u32, field: usize| self.words()[lock_at(self.words()[header::RESOURCES], lock, field)];
        let at = |index: u32| (index != 0).then_some(index);
        let numbers = std::iter::successors(at(head), move |lock| at(word(*lock, lock::HOME)));
        numbers.map(move |lock| Lock {
            entry: Entry {
                lock,
                client: word(lock, lock::CLIENT),
                queue,
                held: Mode::from_number(word(lock, lock::HELD)).filter(|_| queue != Queue::Waiting),
                asked: Mode::from_number(word(lock, lock::ASKED)).filter(|_| queue != Queue::Granted),
            },
            mark: mark(word(lock, lock::MARK)),
        })
    }
}

/// All resources in use, or that the tables aren't sound.
///
/// ```
/// # use zamgyorud::{Flags, Mode, Refusal, Tables};
/// # fn main() -> Result<(), Refusal> {
/// let mut tables = Tables::start(4, 8)?;
/// tables.request(1, Mode::Pw, Flags::NONE, b"RES-A")?;
/// tables.request(2, Mode::Nl, Flags::NONE, b"RES-A")?;
/// tables.convert(2, 2, Mode::Ex, Flags::NONE, b"")?;
/// tables.request(3, Mode::Cr, Flags::NONE, b"RES-A")?;
/// assert_eq!(
///     tables.to_string(),
///     "RES-A (value valid)\n\
///      \x20 GRANTED     lock 1, client 1, PW, marked EX\n\
///      \x20 CONVERTING  lock 2, client 2, NL to EX\n\
///      \x20 WAITING     lock 3, client 3, CR\n"
/// );
/// # Ok(())
/// # }
/// ```
impl fmt::Display for Tables {
    fn fmt(&self, f: &mut fmt::Formatter) -> fmt::Result {
        match self.resources() {
            Err(_) => writeln!(f, "the tables aren't sound"),
            Ok(resources) if resources.is_empty() => writeln!(f, "no resource is in use"),
            Ok(resources) => resources.iter().try_for_each(|resource| write!(f, "{resource}")),
        }
    }
}

impl fmt::Display for Resource {
    fn fmt(&self, f: &mut fmt::Formatter) -> fmt::Result {
        let validity = if self.value.valid { "value valid" } else { "value not valid" };
        writeln!(f, "{} ({validity})", self.name.escape_ascii())?;
        for (queue, title) in [(Queue::Granted, "GRANTED"), (Queue::Converting, "CONVERTING"), (Queue::Waiting, "WAITING")] {
            let mut locks = self.locks.iter().filter(|lock| lock.entry.queue == queue);
            match locks.next() {
                Some(first) => writeln!(f, "  {title:10}  {first}")?,
                None => writeln!(f, "  {title:10}  -")?,
            }
            locks.try_for_each(|lock| writeln!(f, "  {:10}  {lock}", ""))?;
        }
        Ok(())
    }
}

impl fmt::Display for Lock {
    fn fmt(&self, f: &mut fmt::Formatter) -> fmt::Result {
        write!(f, "{}", self.entry)?;
        self.mark.map_or(Ok(()), |mode| write!(f, ", marked {mode}"))
    }
}

impl fmt::Display for Entry {
    fn fmt(&self, f: &mut fmt::Formatter) -> fmt::Result {
        write!(f, "lock {}, client {}, ", self.lock, self.client)?;
        match (self.held, self.asked) {
            (Some(held), Some(asked)) => write!(f, "{held} to {asked}"),
            (Some(mode), None) | (None, Some(mode)) => write!(f, "{mode}"),
            (None, None) => write!(f, "no mode"),
        }
    }
}
