//! What a call met and did of wait chains, told from the states before and after it. By document 02, R-2, a new request queues behind all that
//! stand there, unless it is for NL.

use crate::call::Call;
use crate::events::{Event, note};
use crate::manager::{lock, result};
use model::{Lock, Mode, Standing, State};

/// What was noteworthy about an accepted call.
pub fn note_waiters(before: &State, call: &Call, answer: u64, after: &State, found: &mut Vec<Event>) {
    match call {
        Call::Request { flags, .. } => requested(after, lock(answer), *flags, found),
        Call::Convert { lock, mode, .. } if result(answer) == 1 => converted(before, *lock, *mode, found),
        _ => {}
    }
    if matches!(call, Call::Convert { .. } | Call::Release { .. } | Call::Cancel { .. } | Call::Purge { .. } | Call::Break) {
        swept(before, after, found);
    }
}

/// Whether a lock waits, and only because of those ahead of it on the wait chain. In sound tables the wait head never does.
pub fn behind_waiters(state: &State, number: u32) -> bool {
    match state.locks[&number].standing {
        Standing::Waiting { resource, asked } => state.resources[&resource].converting.is_empty() && state.fits(resource, asked, 0),
        _ => false,
    }
}

/// The number is that of the new lock.
fn requested(after: &State, number: u32, flags: u32, found: &mut Vec<Event>) {
    let lock = &after.locks[&number];
    let others_wait = lock.resource().is_some_and(|resource| after.resources[&resource].waiting.iter().any(|other| *other != number));
    note(found, others_wait && lock.held() == Some(Mode::Nl), Event::NlPastWaiters);
    note(found, others_wait && lock.held() == Some(Mode::Nl) && flags == 4, Event::NlPastWaitersDontQueue);
    note(found, others_wait && lock.asked() == Some(Mode::Nl), Event::NlWaitsForConversion);
    note(found, behind_waiters(after, number), Event::WaitsForWaiters);
}

fn converted(before: &State, number: u32, mode: u32, found: &mut Vec<Event>) {
    let lock = &before.locks[&number];
    let others_wait = lock.resource().is_some_and(|resource| !before.resources[&resource].waiting.is_empty());
    let down = lock.held().zip(Mode::from_number(mode)).is_some_and(|(old, new)| old.down_to(new));
    note(found, others_wait && !down, Event::ConvertUpPastWaiters);
}

/// What a sweep that granted a waiting lock did with the next one, if the wait chain alone held that up.
fn swept(before: &State, after: &State, found: &mut Vec<Event>) {
    let granted = |number: &u32| after.locks.get(number).is_some_and(|lock| lock.completion() == 1);
    let neighbours = before.resources.values().flat_map(|queues| queues.waiting.iter().zip(queues.waiting.iter().skip(1)));
    let behind = neighbours.filter(|(ahead, number)| granted(ahead) && behind_waiters(before, **number)).map(|(_, number)| number);
    note(found, behind.clone().any(granted), Event::SweepGrantsBehind);
    note(found, behind.into_iter().any(|number| after.locks.get(number).is_some_and(Lock::blocked)), Event::SweepStopsBehind);
}

#[cfg(test)]
mod tests {
    use crate::lines::LineCounts;

    /// What is noted of wait chains in a script of lockplay.
    fn noted(script: &str) -> Vec<String> {
        LineCounts::occurring(script, "wait chain")
    }

    /// PR is held, and EX waits for it.
    const WAITS: &str = "q 1 3 0 a\nq 2 5 0 a\n";

    #[test]
    fn requests_behind_the_wait_chain() {
        assert_eq!(noted(WAITS), [""; 0]);
        assert_eq!(noted(&format!("{WAITS}q 3 2 0 a\n")), [""; 0], "CW waits for PR as well");
        assert_eq!(noted(&format!("{WAITS}q 3 3 0 a\n")), ["request: waits because of the wait chain alone"]);
        assert_eq!(noted(&format!("{WAITS}q 3 3 4 a\n")), ["request refused with 13: behind the wait chain alone"]);
        let past = ["request: NL granted past a wait chain", "request: NL with flag 4 granted past a wait chain"];
        assert_eq!(noted(&format!("{WAITS}q 3 0 0 a\n")), past[..1]);
        assert_eq!(noted(&format!("{WAITS}q 3 0 4 a\n")), past);
    }

    /// Client 3's PR holds up client 1's conversion.
    #[test]
    fn conversions_and_the_wait_chain() {
        let up = format!("q 3 3 0 a\n{WAITS}c 1 2 5 0\n");
        assert_eq!(noted(&up), [""; 0]);
        assert_eq!(noted(&format!("{up}q 4 0 4 a\n")), [""; 0], "13, and not because of the wait chain");
        assert_eq!(noted(&format!("{up}q 4 0 0 a\n")), ["request: NL joins a wait chain behind a conversion"]);
        assert_eq!(noted(&format!("{WAITS}c 1 1 4 0\n")), ["convert: not down, in place past a wait chain"]);
        assert_eq!(noted(&format!("{WAITS}c 1 1 1 0\n")), [""; 0], "down");
    }

    #[test]
    fn sweeps_and_deadlocks_of_the_wait_chain() {
        let behind = format!("{WAITS}q 3 3 0 a\n");
        let stops = noted(&format!("{behind}r 1 1 0\n"));
        assert!(stops[1].ends_with("the sweep grants and stops at a request that the wait chain alone held up"), "{stops:?}");
        let both = noted("q 1 3 0 a\nq 2 2 0 a\nq 3 1 0 a\nr 1 1 0\n");
        assert!(both[1].ends_with("the sweep grants a request that the wait chain alone held up, after the one ahead"), "{both:?}");
        assert_eq!(noted(&format!("{behind}x 2 2\n")).len(), 1, "a sweep that grants no one ahead");
        // Client 1 asks again and waits behind client 2, which waits for client 1.
        let again = noted(&format!("{WAITS}q 1 3 0 a\nd\n"));
        assert_eq!(again[1..], ["break: a cycle through a request that the wait chain alone held up"]);
    }
}
