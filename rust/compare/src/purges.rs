//! What a purge met of blocked locks and completions unread, which document 02, R-3, has it count: told from the state before it.

use crate::call::Call;
use crate::events::{Event, note};
use model::{Lock, Standing, State};

/// What was noteworthy about an accepted call.
pub fn note_purge(before: &State, call: &Call, found: &mut Vec<Event>) {
    let Call::Purge { client } = call else { return };
    let (its, others): (Vec<&Lock>, Vec<&Lock>) = before.locks.values().partition(|lock| u32::from(lock.client) == *client);
    blocked(&its, found);
    unread(&its, found);
    together(&its, &others, found);
    note(found, its.iter().any(|lock| lock.blocked() && held_up(before, lock)), Event::PurgeHeldUp);
}

fn has(locks: &[&Lock], is: fn(&Lock) -> bool) -> bool {
    locks.iter().any(|lock| is(lock))
}

/// Whether more locks are so than a byte can count. A poll has at most 5 in the place of purge's third count.
fn over_a_byte(locks: &[&Lock], is: fn(&Lock) -> bool) -> bool {
    locks.iter().filter(|lock| is(lock)).count() > 255
}

/// Whether two locks have the same of something.
fn alike(locks: &[&Lock], of: fn(&Lock) -> Option<u32>) -> bool {
    let mut found: Vec<u32> = locks.iter().filter_map(|lock| of(lock)).collect();
    found.sort();
    found.windows(2).any(|two| two[0] == two[1])
}

fn blocked(its: &[&Lock], found: &mut Vec<Event>) {
    let converting = has(its, |lock| matches!(lock.standing, Standing::Converting { .. }));
    let waiting = has(its, |lock| matches!(lock.standing, Standing::Waiting { .. }));
    note(found, converting, Event::PurgeConverting);
    note(found, waiting, Event::PurgeWaiting);
    note(found, converting && waiting, Event::PurgeBothQueues);
    note(found, alike(its, |lock| lock.resource().filter(|_| lock.blocked())), Event::PurgeBlockedOnOne);
    note(found, over_a_byte(its, Lock::blocked), Event::PurgeManyBlocked);
}

fn unread(its: &[&Lock], found: &mut Vec<Event>) {
    let completions = [1, 2, 3].map(|number| its.iter().any(|lock| lock.completion() == number));
    let events = [Event::PurgeGranted, Event::PurgeDenied, Event::PurgeConversionDenied];
    events.into_iter().zip(completions).for_each(|(event, so)| note(found, so, event));
    note(found, completions == [true; 3], Event::PurgeEveryCompletion);
    note(found, alike(its, |lock| lock.unread().then_some(lock.completion())), Event::PurgeUnreadAlike);
    note(found, over_a_byte(its, Lock::unread), Event::PurgeManyUnread);
}

/// Which of the two counts are above zero, beside marks and what others have.
fn together(its: &[&Lock], others: &[&Lock], found: &mut Vec<Event>) {
    let (blocked, unread) = (has(its, Lock::blocked), has(its, Lock::unread));
    let mark_alone = has(its, |lock| lock.mark.is_some() && !lock.unread());
    let others_too = has(others, Lock::blocked) && has(others, Lock::unread);
    note(found, blocked && unread, Event::PurgeBlockedAndUnread);
    note(found, blocked && !unread, Event::PurgeBlockedAlone);
    note(found, !blocked && unread, Event::PurgeUnreadAlone);
    note(found, !its.is_empty() && !blocked && !unread, Event::PurgeNeither);
    note(found, mark_alone && !unread, Event::PurgeMarkAlone);
    note(found, mark_alone && unread, Event::PurgeMarkBeside);
    note(found, its.is_empty() && others_too, Event::PurgeNone);
    note(found, blocked && unread && others_too, Event::PurgeOthersToo);
}

/// Whether nobody but its client holds up a blocked lock, so that a sweep amid the purge would grant it and it would be another count's.
fn held_up(before: &State, lock: &Lock) -> bool {
    let (Some(resource), Some(asked)) = (lock.resource(), lock.asked()) else { return false };
    let queues = &before.resources[&resource];
    let mut others = queues.locks().map(|number| &before.locks[&number]).filter(|other| other.client != lock.client);
    others.all(|other| !other.blocked() && other.held().is_some_and(|held| held.compatible(asked)))
}

#[cfg(test)]
mod tests {
    use crate::lines::LineCounts;

    /// What is noted of a purge of client 1 after a script of lockplay, besides what it frees and sweeps and the modes of its locks.
    fn noted(script: &str) -> Vec<String> {
        let all = LineCounts::occurring(&format!("{script}p 1\n"), "purge:");
        let elsewhere = ["frees", "sweep", "value", "five or more", "a marked", "a mark stays", "of one mode", "of its mode"];
        all.into_iter().filter(|what| !elsewhere.iter().any(|word| what.contains(word))).collect()
    }

    const NEITHER: &str = "purge: locks, none of them blocked or with a completion unread";

    #[test]
    fn blocked_locks() {
        let alone = "purge: blocked locks and no completion unread";
        assert_eq!(noted(""), [""; 0]);
        assert_eq!(noted("q 1 5 0 a\n"), [NEITHER]);
        assert_eq!(noted("q 2 5 0 a\nq 1 5 0 a\n"), ["purge: a waiting lock", alone]);
        assert_eq!(noted("q 2 5 0 a\nq 1 0 0 a\nc 1 2 5 0\n"), ["purge: a converting lock", alone]);
        let own = [
            "purge: a waiting lock",
            "purge: a blocked lock that its client alone holds up",
            alone,
            "purge: a mark alone, and no completion unread",
        ];
        assert_eq!(noted("q 1 5 0 a\nq 1 5 0 a\n"), own);
        let two = noted("q 2 5 0 a\nq 1 0 0 a\nc 1 2 5 0\nq 1 1 0 a\n");
        assert_eq!(two[2..4], ["purge: converting and waiting locks", "purge: two blocked locks on one resource"]);
    }

    #[test]
    fn completions_unread() {
        let alone = "purge: completions unread and no blocked lock";
        assert_eq!(noted("q 2 5 0 a\nq 1 5 0 a\nr 2 1 0\n"), ["purge: a lock with completion 1 unread", alone]);
        assert_eq!(noted("q 2 5 0 a\nq 1 5 0 a\nr 2 1 0\nn 1\n"), [NEITHER]);
        let denied = noted("q 1 5 0 a\nq 1 5 0 a\nd\n");
        assert_eq!(denied, ["purge: a lock with completion 2 unread", alone, "purge: a mark alone, beside a completion unread"]);
        let conversion = noted("q 1 3 0 a\nq 1 3 0 a\nc 1 1 5 0\nd\nn 1\n");
        assert_eq!(conversion, ["purge: a lock with completion 3 unread", alone]);
    }

    #[test]
    fn beside_others() {
        let others = "q 2 5 0 a\nq 2 5 0 a\nd\nq 2 5 0 a\n";
        assert_eq!(noted(others), ["purge: no lock, where others are blocked and have completions unread"]);
        let both = noted(&format!("q 1 5 0 b\nq 1 5 0 b\nd\n{others}q 1 5 0 b\n"));
        let too = "purge: blocked locks and completions unread, where others have both too";
        assert!(both.iter().any(|what| what == too), "{both:?}");
    }
}
