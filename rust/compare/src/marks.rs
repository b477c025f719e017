//! What a call met and did of marks (document 02, R-1), told from the states before and after it, and once from the calls before.

use crate::call::Call;
use crate::events::{Event, note};
use crate::manager::{lock, result};
use model::{Lock, Mode, State};
use std::collections::BTreeSet;

/// What was noteworthy about an accepted call.
pub fn note_marks(before: &State, call: &Call, answer: u64, after: &State, found: &mut Vec<Event>) {
    match call {
        Call::Request { .. } if result(answer) == 2 => queued(before, after, lock(answer), found),
        Call::Convert { lock, .. } => converted(before, after, *lock, found),
        Call::Release { lock, .. } => released(before, *lock, found),
        Call::Cancel { lock, .. } => cancelled(before, after, *lock, found),
        Call::Purge { client } => purged(before, after, *client, found),
        Call::Break => denied(before, result(answer), found),
        Call::Poll { .. } => polled(before, lock(answer), found),
        Call::Read { lock, .. } => note(found, marked(before, *lock), Event::ReadMarked),
        Call::List { lock, .. } => listed(before, *lock, found),
        Call::Sound => sound(before, found),
        _ => {}
    }
    if matches!(call, Call::Convert { .. } | Call::Release { .. } | Call::Cancel { .. } | Call::Purge { .. } | Call::Break) {
        swept(before, after, found);
    }
}

fn marked(state: &State, number: u32) -> bool {
    state.locks.get(&number).is_some_and(|lock| lock.mark.is_some())
}

/// Whether a lock has a notice with others behind it.
fn before_others(state: &State, number: u32) -> bool {
    state.notices.contains(&number) && state.notices.back() != Some(&number)
}

/// Whether a resource has a mark and nobody waits there.
fn outlasted(state: &State, resource: u32) -> bool {
    let idle = state.resources.get(&resource).filter(|queues| queues.converting.is_empty() && queues.waiting.is_empty());
    idle.is_some_and(|queues| queues.granted.iter().any(|lock| marked(state, *lock)))
}

/// A lock in the way of one that was queued: what it was, and whether others' notices stood behind its own.
struct InTheWay<'a> {
    was: &'a Lock,
    before_others: bool,
    asked: Mode,
    /// Whether both locks are one client's.
    own: bool,
}

impl InTheWay<'_> {
    fn raised(&self) -> bool {
        self.was.mark.is_some_and(|mark| mark < self.asked)
    }

    fn left(&self) -> bool {
        self.was.mark.is_some_and(|mark| mark >= self.asked)
    }

    fn pr_and_cw(&self) -> bool {
        matches!((self.was.held(), self.asked), (Some(Mode::Pr), Mode::Cw) | (Some(Mode::Cw), Mode::Pr))
    }
}

/// What can be so of a lock in the way: an event of a request, the same of a conversion, and when it is so.
type Kind = ([Event; 2], fn(&InTheWay) -> bool);

const KINDS: &[Kind] = &[
    ([Event::RequestSetsMark, Event::ConvertSetsMark], |lock| lock.was.mark.is_none()),
    ([Event::RequestRaisesMark, Event::ConvertRaisesMark], |lock| lock.raised()),
    ([Event::RequestRaisesInPlace, Event::ConvertRaisesInPlace], |lock| lock.raised() && lock.before_others),
    ([Event::RequestLeavesEqual, Event::ConvertLeavesEqual], |lock| lock.was.mark == Some(lock.asked)),
    ([Event::RequestLeavesLarger, Event::ConvertLeavesLarger], |lock| lock.was.mark > Some(lock.asked)),
    ([Event::RequestSetsConverting, Event::ConvertSetsConverting], |lock| lock.was.blocked() && lock.was.mark.is_none()),
    ([Event::RequestRaisesConverting, Event::ConvertRaisesConverting], |lock| lock.was.blocked() && lock.raised()),
    ([Event::RequestLeavesConverting, Event::ConvertLeavesConverting], |lock| lock.was.blocked() && lock.left()),
    ([Event::RequestMarksUnread, Event::ConvertMarksUnread], |lock| lock.was.completion() != 0 && lock.was.mark.is_none()),
    ([Event::RequestMarksOwn, Event::ConvertMarksOwn], |lock| lock.own),
    ([Event::RequestMarksPrCw, Event::ConvertMarksPrCw], |lock| lock.pr_and_cw()),
];

/// What a request or a conversion that waits did to those in its way. The number is that of the lock that it has queued.
fn queued(before: &State, after: &State, number: u32, found: &mut Vec<Event>) {
    let lock = &after.locks[&number];
    let (Some(resource), Some(asked)) = (lock.resource(), lock.asked()) else { return };
    let event = |pair: [Event; 2]| pair[usize::from(before.locks.contains_key(&number))];
    let holders: Vec<u32> = before.resources[&resource].holders().filter(|other| *other != number).collect();
    let in_the_way: Vec<InTheWay> = holders
        .iter()
        .map(|other| (&before.locks[other], before_others(before, *other)))
        .filter(|(was, _)| was.held().is_some_and(|held| !held.compatible(asked)))
        .map(|(was, before_others)| InTheWay { was, before_others, asked, own: was.client == lock.client })
        .collect();
    for (pair, is) in KINDS {
        note(found, in_the_way.iter().any(is), event(*pair));
    }
    let joins = |converting: bool| in_the_way.iter().any(|lock| !lock.was.noticed() && lock.was.blocked() == converting);
    let changed = in_the_way.iter().filter(|lock| !lock.left()).count();
    let spared = in_the_way.len() < holders.len();
    note(found, changed >= 2, event([Event::RequestMarksSeveral, Event::ConvertMarksSeveral]));
    note(found, joins(false) && joins(true), event([Event::RequestMarksBoth, Event::ConvertMarksBoth]));
    let behind = !before.notices.is_empty() && (joins(false) || joins(true));
    note(found, behind, event([Event::RequestMarksBehind, Event::ConvertMarksBehind]));
    note(found, changed > 0 && spared, event([Event::RequestMarksSome, Event::ConvertMarksSome]));
    note(found, in_the_way.is_empty(), event([Event::RequestMarksNobody, Event::ConvertMarksNobody]));
}

fn converted(before: &State, after: &State, number: u32, found: &mut Vec<Event>) {
    if after.locks[&number].blocked() {
        note(found, marked(before, number), Event::ConvertMarkedQueued);
        return queued(before, after, number, found);
    }
    let down = before.locks[&number].held().zip(after.locks[&number].held()).is_some_and(|(old, new)| old.down_to(new));
    let event = if down { Event::ConvertMarkedDown } else { Event::ConvertMarkedUp };
    note(found, marked(before, number), event);
}

fn released(before: &State, number: u32, found: &mut Vec<Event>) {
    let between = before.notices.front() != Some(&number) && before_others(before, number);
    note(found, marked(before, number), Event::ReleaseMarked);
    note(found, marked(before, number) && between, Event::ReleaseMarkedBetween);
}

fn cancelled(before: &State, after: &State, number: u32, found: &mut Vec<Event>) {
    let resource = before.locks[&number].resource();
    note(found, marked(before, number), Event::CancelMarked);
    note(found, resource.is_some_and(|resource| outlasted(after, resource)), Event::CancelMarkStays);
}

fn purged(before: &State, after: &State, client: u32, found: &mut Vec<Event>) {
    let its: Vec<&Lock> = before.locks.values().filter(|lock| u32::from(lock.client) == client).collect();
    let mut marked = its.iter().filter(|lock| lock.mark.is_some());
    note(found, marked.clone().any(|lock| !lock.blocked()), Event::PurgeMarked);
    note(found, marked.clone().any(|lock| lock.blocked()), Event::PurgeMarkedConverting);
    note(found, marked.any(|lock| lock.completion() != 0), Event::PurgeMarkedUnread);
    let mut waited_on = its.iter().filter(|lock| lock.blocked()).filter_map(|lock| lock.resource());
    note(found, waited_on.any(|resource| outlasted(after, resource)), Event::PurgeMarkStays);
}

fn denied(before: &State, number: u32, found: &mut Vec<Event>) {
    note(found, marked(before, number), Event::BreakMarked);
    note(found, marked(before, number) && before_others(before, number), Event::BreakMarkedInPlace);
}

fn polled(before: &State, number: u32, found: &mut Vec<Event>) {
    let Some(was) = before.locks.get(&number).filter(|lock| lock.mark.is_some()) else { return };
    let alone = was.completion() == 0;
    note(found, alone && !was.blocked(), Event::PollMarkGranted);
    note(found, alone && was.blocked(), Event::PollMarkConverting);
    note(found, alone && was.resource().is_some_and(|resource| outlasted(before, resource)), Event::PollMarkOutlasting);
    note(found, was.completion() == 1, Event::PollMarkWithGrant);
    note(found, was.completion() == 3, Event::PollMarkWithDenial);
}

fn listed(before: &State, number: u32, found: &mut Vec<Event>) {
    let resource = before.locks[&number].resource().map(|resource| &before.resources[&resource]);
    note(found, resource.is_some_and(|queues| queues.locks().any(|lock| marked(before, lock))), Event::ListMarked);
}

fn sound(state: &State, found: &mut Vec<Event>) {
    let has = |fits: &dyn Fn(&Lock) -> bool| state.locks.values().any(|lock| lock.mark.is_some() && fits(lock));
    let every = |blocked: bool| (1..=5).all(|mark| has(&|lock| lock.mark_number() == mark && lock.blocked() == blocked));
    note(found, every(false) && every(true), Event::SoundEveryMark);
    note(found, has(&|lock| lock.completion() == 1) && has(&|lock| lock.completion() == 3), Event::SoundMarkUnread);
}

/// The marked conversions that a call has ended and left a completion for.
fn ended<'a>(before: &'a State, after: &'a State) -> impl Iterator<Item = u32> + 'a {
    let unread = |number: &u32| after.locks.get(number).is_some_and(|lock| lock.completion() != 0);
    before.blocked.iter().copied().filter(|number| marked(before, *number)).filter(unread)
}

fn swept(before: &State, after: &State, found: &mut Vec<Event>) {
    let granted: Vec<u32> = ended(before, after).filter(|number| after.locks[number].completion() == 1).collect();
    note(found, !granted.is_empty(), Event::SweepGrantsMarked);
    note(found, granted.iter().any(|number| before_others(before, *number)), Event::SweepGrantsMarkedInPlace);
}

/// Conversions that were marked when they were granted or denied, and whose client hasn't been told. A state doesn't show when a mark came.
#[derive(Default)]
pub struct Carried(BTreeSet<u32>);

impl Carried {
    /// Goes on by an accepted call. Gives what a poll tells of one of these.
    pub fn play(&mut self, before: &State, call: &Call, answer: u64, after: &State) -> Option<Event> {
        if matches!(call, Call::Start { .. } | Call::Load { .. }) {
            self.0.clear();
            return None;
        }
        let told = matches!(call, Call::Poll { .. }) && self.0.contains(&lock(answer));
        self.0.retain(|number| after.locks.get(number).is_some_and(|lock| lock.completion() != 0));
        self.0.extend(ended(before, after));
        told.then_some(if result(answer) == 1 { Event::PollMarkedThenGranted } else { Event::PollMarkedThenDenied })
    }
}

#[cfg(test)]
mod tests {
    use crate::lines::LineCounts;

    /// What is noted of marks in a script of lockplay.
    fn noted(script: &str) -> Vec<String> {
        LineCounts::occurring(script, "mark")
    }

    #[test]
    fn a_mark_that_is_set_and_polled() {
        let set = "q 1 3 0 a\nq 2 5 0 a\n";
        assert_eq!(noted(set), ["request: sets a mark"]);
        assert_eq!(noted(&format!("{set}n 1\n"))[1..], ["poll: a mark alone, of a granted lock"]);
        let outlasted = noted(&format!("{set}x 2 2\nn 1\n"));
        let stays = ["cancel: a mark stays where nobody waits any more", "poll: a mark alone, of a granted lock"];
        assert_eq!(outlasted[1..], [&stays[..], &["poll: a mark alone where nobody waits any more"]].concat());
    }

    /// Lock 1 waits for 2 and is then in the way itself: the mark of 2, EX, is larger than the CW that 3 asks for.
    #[test]
    fn marks_of_a_converting_lock() {
        let waits = "q 1 3 0 a\nq 2 3 0 a\nc 1 1 5 0\nq 3 2 0 a\n";
        let both = [
            "request: sets a mark",
            "request: leaves a larger mark",
            "request: sets a mark on a converting lock",
            "request: CW marks PR, or PR marks CW",
            "request: marked locks join behind other notices",
            "convert: sets a mark",
        ];
        assert_eq!(noted(waits), both);
        assert_eq!(noted(&format!("{waits}n 1\n"))[6..], ["poll: a mark alone, of a converting lock"]);
        let told = noted(&format!("{waits}r 2 2 0\nn 1\n"));
        for what in ["release: a marked lock", "poll: a mark with completion 1", "poll: a conversion that was marked and then granted"] {
            assert!(told.iter().any(|told| told == what), "{what}");
        }
    }
}
