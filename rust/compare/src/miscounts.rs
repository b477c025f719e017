//! Damages of the counts: resources that count more or fewer locks of a mode than hold it.

use crate::call::Change;
use crate::damage::{Damager, word};
use model::layout::{resource, resource_at};
use model::{Lock, Mode};

/// Where a resource counts the locks that hold a mode.
fn count_at(number: u32, mode: Mode) -> usize {
    resource_at(number, resource::COUNTS[mode as usize])
}

/// Sets all counts of a resource.
pub fn count_changes(number: u32, counts: [u32; 6]) -> Vec<Change> {
    Mode::ALL.into_iter().zip(counts).map(|(mode, count)| Change::Word(count_at(number, mode), count)).collect()
}

impl Damager<'_> {
    /// A resource in use, and what it counts, of which something is so.
    fn counting(&mut self, fits: impl Fn([u32; 6]) -> bool) -> Option<(u32, [u32; 6])> {
        let state = self.state;
        let all = state.resources.keys().map(|number| (*number, state.counts(*number)));
        let found: Vec<(u32, [u32; 6])> = all.filter(|(_, counts)| fits(*counts)).collect();
        self.pick(&found)
    }

    /// One lock of a mode more is counted than there is.
    pub fn count_more(&mut self, mode: Mode) -> Option<Vec<Change>> {
        let (resource, counts) = self.counting(|_| true)?;
        word(count_at(resource, mode), counts[mode as usize] + 1)
    }

    /// One lock of a mode fewer is counted than there is.
    pub fn count_fewer(&mut self, mode: Mode) -> Option<Vec<Change>> {
        let (resource, counts) = self.counting(|counts| counts[mode as usize] > 0)?;
        word(count_at(resource, mode), counts[mode as usize] - 1)
    }

    /// A count is another number.
    pub fn other_count(&mut self, other: fn(&mut Self, u32) -> u32) -> Option<Vec<Change>> {
        let (resource, counts) = self.counting(|_| true)?;
        let mode = *self.rng.pick(&Mode::ALL);
        word(count_at(resource, mode), other(self, counts[mode as usize]))
    }

    /// One less of a mode that is so often held, and one more of another.
    fn count_elsewhere(&mut self, fits: fn(u32) -> bool) -> Option<Vec<Change>> {
        let (resource, mut counts) = self.counting(|counts| counts.into_iter().any(fits))?;
        let less: Vec<usize> = (0..counts.len()).filter(|mode| fits(counts[*mode])).collect();
        let less = self.pick(&less)?;
        let more = (less + self.rng.between(1, 5)) % counts.len();
        counts[less] = counts[less].wrapping_sub(1);
        counts[more] += 1;
        Some(count_changes(resource, counts))
    }

    /// A lock is counted by another mode than it holds.
    pub fn count_other_mode(&mut self) -> Option<Vec<Change>> {
        self.count_elsewhere(|count| count > 0)
    }

    /// A count of 2 ^ 32 - 1 makes up for one that is too large, where numbers of 32 bits are added.
    pub fn count_around(&mut self) -> Option<Vec<Change>> {
        self.count_elsewhere(|count| count == 0)
    }

    /// The counts of two modes change places.
    pub fn swap_counts(&mut self) -> Option<Vec<Change>> {
        let (one, other) = (self.rng.below(6), self.rng.below(6));
        let (resource, mut counts) = self.counting(|counts| counts[one] != counts[other])?;
        counts.swap(one, other);
        Some(count_changes(resource, counts))
    }

    /// The counts of two resources change places.
    pub fn swap_all_counts(&mut self) -> Option<Vec<Change>> {
        let (one, counts) = self.counting(|_| true)?;
        let (other, other_counts) = self.counting(|other| other != counts)?;
        Some([count_changes(one, other_counts), count_changes(other, counts)].concat())
    }

    pub fn count_nobody(&mut self) -> Option<Vec<Change>> {
        let resource = self.resource_where(|_| true)?;
        Some(count_changes(resource, [0; 6]))
    }

    /// A lock is counted by the mode that it asks for: instead of the one that it holds, if it holds one.
    pub fn count_asked(&mut self, fits: fn(&Lock) -> bool) -> Option<Vec<Change>> {
        let number = self.lock_where(|lock| fits(lock) && lock.held() != lock.asked())?;
        let lock = &self.state.locks[&number];
        let (resource, asked) = lock.resource().zip(lock.asked())?;
        let mut counts = self.state.counts(resource);
        if let Some(held) = lock.held() {
            counts[held as usize] -= 1;
        }
        counts[asked as usize] += 1;
        Some(count_changes(resource, counts))
    }

    /// A waiting lock, whose held mode is zero, is counted as if it held NL.
    pub fn count_waiting(&mut self) -> Option<Vec<Change>> {
        let resource = self.resource_where(|resource| !resource.waiting.is_empty())?;
        word(count_at(resource, Mode::Nl), self.state.counts(resource)[Mode::Nl as usize] + 1)
    }

    /// Only granted locks are counted, and not those that convert.
    pub fn count_granted(&mut self) -> Option<Vec<Change>> {
        let resource = self.resource_where(|resource| !resource.converting.is_empty())?;
        let mut counts = self.state.counts(resource);
        for lock in &self.state.resources[&resource].converting {
            counts[self.state.locks[lock].held()? as usize] -= 1;
        }
        Some(count_changes(resource, counts))
    }
}
