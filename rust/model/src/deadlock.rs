//! The deadlock search, as the paper words it: what each blocked lock leads to, and whether one leads back to itself.

use crate::{Standing, State};
use std::collections::BTreeMap;

/// A set of lock numbers.
#[derive(Clone)]
struct Numbers(Vec<u64>);

impl Numbers {
    fn none(most: u32) -> Numbers {
        Numbers(vec![0; most as usize / 64 + 1])
    }

    fn insert(&mut self, number: u32) {
        self.0[number as usize / 64] |= 1 << (number % 64);
    }

    fn contains(&self, number: u32) -> bool {
        self.0[number as usize / 64] & 1 << (number % 64) != 0
    }

    fn add_all(&mut self, other: &Numbers) {
        self.0.iter_mut().zip(&other.0).for_each(|(own, others)| *own |= others);
    }

    /// Takes out what another set has.
    fn without(mut self, other: &Numbers) -> Numbers {
        self.0.iter_mut().zip(&other.0).for_each(|(own, others)| *own &= !others);
        self
    }

    fn is_empty(&self) -> bool {
        self.0.iter().all(|part| *part == 0)
    }

    fn iter(&self) -> impl Iterator<Item = u32> + '_ {
        (0..self.0.len() as u32 * 64).filter(|number| self.contains(*number))
    }
}

impl State {
    /// The first lock on the blocked chain that leads back to itself in one or more steps.
    pub(crate) fn first_deadlocked(&self) -> Option<u32> {
        let by_client = self.blocked_by_client();
        let leads: BTreeMap<u32, Numbers> = self.blocked.iter().map(|lock| (*lock, self.leads_to(*lock, &by_client))).collect();
        self.blocked.iter().copied().find(|lock| self.leads_back(*lock, &leads))
    }

    /// Whether a blocked lock leads to another, or itself, in one step.
    pub fn leads_in_one_step(&self, from: u32, to: u32) -> bool {
        self.leads_to(from, &self.blocked_by_client()).contains(to)
    }

    /// The blocked locks of each client.
    fn blocked_by_client(&self) -> BTreeMap<u8, Numbers> {
        let mut by_client = BTreeMap::new();
        for lock in &self.blocked {
            let client = self.locks[lock].client;
            by_client.entry(client).or_insert_with(|| Numbers::none(self.most_locks)).insert(*lock);
        }
        by_client
    }

    /// All that a blocked lock leads to in one step.
    fn leads_to(&self, number: u32, by_client: &BTreeMap<u8, Numbers>) -> Numbers {
        let mut found = Numbers::none(self.most_locks);
        self.ahead_of(number).for_each(|other| found.insert(other));
        for other in self.in_the_way_of(number) {
            if let Some(blocked) = by_client.get(&self.locks[&other].client) {
                found.add_all(blocked);
            }
        }
        found
    }

    /// The blocked locks on its resource that are ahead: on its own chain, and for a waiting lock also all of the convert chain.
    fn ahead_of(&self, number: u32) -> impl Iterator<Item = u32> + '_ {
        let lock = &self.locks[&number];
        let queues = &self.resources[&lock.resource().expect("a blocked lock stands on a resource")];
        let waits = matches!(lock.standing, Standing::Waiting { .. });
        let (all_of, part_of) = if waits { (Some(&queues.converting), &queues.waiting) } else { (None, &queues.converting) };
        let before = part_of.iter().copied().take_while(move |other| *other != number);
        all_of.into_iter().flatten().copied().chain(before)
    }

    /// Whether a lock leads to itself: all that it reaches in one step, in two, and so on, until nothing new is reached.
    fn leads_back(&self, lock: u32, leads: &BTreeMap<u32, Numbers>) -> bool {
        let mut reached = leads[&lock].clone();
        let mut newest = reached.clone();
        while !newest.is_empty() && !reached.contains(lock) {
            let mut next = Numbers::none(self.most_locks);
            newest.iter().for_each(|number| next.add_all(&leads[&number]));
            newest = next.without(&reached);
            reached.add_all(&newest);
        }
        reached.contains(lock)
    }
}
