//! What a call met and did of held modes, which document 02, R-5, has a resource's record count: told from the states before and after it.

use crate::call::Call;
use crate::events::{Event, note, sizes_of};
use crate::manager::result;
use crate::sizes::LARGEST;
use model::{Lock, Mode, Resource, State};

/// What was noteworthy about an accepted call.
pub fn note_held(before: &State, call: &Call, answer: u64, after: &State, found: &mut Vec<Event>) {
    let granted = result(answer) == 1;
    match call {
        Call::Request { mode, name, .. } => requested(before, after, *mode, name, granted, found),
        Call::Convert { lock, mode, .. } => converted(before, *lock, *mode, granted, found),
        Call::Release { lock, .. } => released(before, *lock, found),
        Call::Purge { client } => purged(before, *client, found),
        Call::Sound => sound(before, found),
        _ => {}
    }
    let sweeps = match call {
        Call::Convert { .. } => granted,
        _ => matches!(call, Call::Release { .. } | Call::Cancel { .. } | Call::Purge { .. } | Call::Break),
    };
    if sweeps {
        swept(before, after, found);
    }
}

/// The other locks on a holder's resource, with the modes that they hold.
fn others(state: &State, number: u32) -> impl Iterator<Item = (&Lock, Mode)> {
    let resource = state.locks[&number].resource().map(|resource| &state.resources[&resource]);
    let others = resource.into_iter().flat_map(Resource::holders).filter(move |other| *other != number);
    others.map(|other| &state.locks[&other]).filter_map(|other| other.held().map(|held| (other, held)))
}

/// Whether another lock on a holder's resource holds the same mode.
fn has_alike(state: &State, number: u32) -> bool {
    others(state, number).any(|(_, held)| state.locks[&number].held() == Some(held))
}

/// Whether a holder that asks for a mode has others in its way, all of them of its own mode.
fn waits_for_alike(state: &State, number: u32, asked: Mode) -> bool {
    let in_the_way: Vec<Mode> = others(state, number).map(|(_, held)| held).filter(|held| !held.compatible(asked)).collect();
    !in_the_way.is_empty() && in_the_way.iter().all(|held| state.locks[&number].held() == Some(*held))
}

/// The mode that all locks there are hold on one resource. Of a single lock this would say nothing.
fn held_by_all(state: &State) -> Option<Mode> {
    let counts = state.resources.keys().flat_map(|number| Mode::ALL.into_iter().zip(state.counts(*number)));
    counts.filter(|_| state.most_locks > 1).find(|(_, count)| *count == state.most_locks).map(|(mode, _)| mode)
}

fn requested(before: &State, after: &State, mode: u32, name: &[u8], granted: bool, found: &mut Vec<Event>) {
    let all = held_by_all(after).is_some();
    note(found, all, Event::RequestCountsAll);
    note(found, all && sizes_of(after) == LARGEST, Event::RequestCountsMost);
    let (Some(resource), Some(asked)) = (before.named(name), Mode::from_number(mode)) else { return };
    let counts = Mode::ALL.into_iter().zip(before.counts(resource));
    let held: Vec<Mode> = counts.filter(|(_, count)| *count > 0).map(|(mode, _)| mode).collect();
    let in_the_way: Vec<Mode> = held.iter().copied().filter(|held| !held.compatible(asked)).collect();
    let queues = &before.resources[&resource];
    let idle = queues.converting.is_empty() && queues.waiting.is_empty();
    match (granted, &held[..], &in_the_way[..]) {
        (true, [alone], _) => found.push(granted_beside(*alone)),
        (false, _, [alone]) if idle => found.extend(waits_for(*alone)),
        _ => {}
    }
}

fn granted_beside(alone: Mode) -> Event {
    match alone {
        Mode::Nl => Event::GrantedBesideNl,
        Mode::Cr => Event::GrantedBesideCr,
        Mode::Cw => Event::GrantedBesideCw,
        Mode::Pr => Event::GrantedBesidePr,
        Mode::Pw => Event::GrantedBesidePw,
        Mode::Ex => Event::GrantedBesideEx,
    }
}

fn waits_for(alone: Mode) -> Option<Event> {
    match alone {
        Mode::Nl => None,
        Mode::Cr => Some(Event::WaitsForCr),
        Mode::Cw => Some(Event::WaitsForCw),
        Mode::Pr => Some(Event::WaitsForPr),
        Mode::Pw => Some(Event::WaitsForPw),
        Mode::Ex => Some(Event::WaitsForEx),
    }
}

fn converted(before: &State, number: u32, mode: u32, granted: bool, found: &mut Vec<Event>) {
    let lock = &before.locks[&number];
    let (Some(held), Some(asked)) = (lock.held(), Mode::from_number(mode)) else { return };
    let first = lock.resource().is_some_and(|resource| before.resources[&resource].converting.is_empty());
    let alike = has_alike(before, number);
    note(found, granted && !held.down_to(asked) && alike, Event::ConvertBesideAlike);
    let lowered = held.down_to(asked) && held != asked;
    note(found, lowered && alike, Event::ConvertDownAlike);
    note(found, lowered && !alike && others(before, number).next().is_some(), Event::ConvertDownLastOfMode);
    note(found, !granted && first && waits_for_alike(before, number, asked), Event::ConvertWaitsForAlike);
}

fn released(before: &State, number: u32, found: &mut Vec<Event>) {
    let alike = has_alike(before, number);
    note(found, alike, Event::ReleaseAlike);
    note(found, !alike && others(before, number).next().is_some(), Event::ReleaseLastOfMode);
}

fn purged(before: &State, client: u32, found: &mut Vec<Event>) {
    let its = |lock: &Lock| u32::from(lock.client) == client;
    let holders: Vec<u32> = before.locks.iter().filter(|(_, lock)| its(lock) && lock.held().is_some()).map(|(number, _)| *number).collect();
    let beside = |number: u32, own: bool| {
        others(before, number).any(|(other, held)| its(other) == own && before.locks[&number].held() == Some(held))
    };
    note(found, holders.iter().any(|number| beside(*number, true)), Event::PurgeAlike);
    note(found, holders.iter().any(|number| beside(*number, false)), Event::PurgeBesideAlike);
}

/// What a sweep did with conversions, of which it has to leave their own held mode out of the counts.
fn swept(before: &State, after: &State, found: &mut Vec<Event>) {
    let ended =
        |number: &&u32| before.locks[*number].held().is_some() && after.locks.get(number).is_some_and(|lock| lock.completion() == 1);
    let granted: Vec<u32> = before.blocked.iter().filter(ended).copied().collect();
    let excludes =
        |number: u32| before.locks[&number].held().zip(after.locks[&number].held()).is_some_and(|(old, new)| !old.compatible(new));
    let beside_alike = |number: u32| others(after, number).any(|(_, held)| before.locks[&number].held() == Some(held));
    note(found, granted.iter().any(|number| excludes(*number)), Event::SweepGrantsOwnMode);
    note(found, granted.iter().any(|number| has_alike(before, *number) && beside_alike(*number)), Event::SweepGrantsBesideAlike);
    let changed =
        |number: u32| before.resources.get(&number) != after.resources.get(&number) || before.counts(number) != after.counts(number);
    let heads = after.resources.iter().filter(|(number, _)| changed(**number)).filter_map(|(_, queues)| queues.converting.front());
    let mut asked = heads.filter_map(|head| after.locks[head].asked().map(|asked| (*head, asked)));
    note(found, asked.any(|(head, asked)| waits_for_alike(after, head, asked)), Event::SweepStopsAtAlike);
}

fn sound(state: &State, found: &mut Vec<Event>) {
    let has = |mode: Mode, blocked: bool| state.locks.values().any(|lock| lock.held() == Some(mode) && lock.blocked() == blocked);
    note(found, Mode::ALL.into_iter().all(|mode| has(mode, false) && has(mode, true)), Event::SoundEveryHeld);
    if sizes_of(state) == LARGEST {
        found.extend(held_by_all(state).and_then(sound_all));
    }
}

/// PW and EX are held by one lock at most.
fn sound_all(mode: Mode) -> Option<Event> {
    match mode {
        Mode::Nl => Some(Event::SoundAllNl),
        Mode::Cr => Some(Event::SoundAllCr),
        Mode::Cw => Some(Event::SoundAllCw),
        Mode::Pr => Some(Event::SoundAllPr),
        Mode::Pw | Mode::Ex => None,
    }
}

#[cfg(test)]
mod tests {
    use crate::lines::LineCounts;

    const OURS: [&str; 9] = [
        "alone is held",
        "request: waits for ",
        "of its mode",
        "no other lock holds",
        "of one mode",
        "of its own mode",
        "the one it held",
        "the mode it held",
        "one mode on one name",
    ];

    /// What is noted of held modes in a script of lockplay.
    fn noted(script: &str) -> Vec<String> {
        let ours = |what: &String| OURS.iter().any(|words| what.contains(words)) && what != "request: waits for a held mode";
        LineCounts::occurring(script, "").into_iter().filter(ours).collect()
    }

    #[test]
    fn requests_beside_one_mode() {
        let granted = ["NL", "CR", "CW", "PR", "PW", "EX"].map(|mode| format!("request: granted where {mode} alone is held"));
        for (held, expected) in granted.iter().enumerate() {
            assert_eq!(noted(&format!("q 1 {held} 0 a\nq 2 0 0 a\n")), [expected.as_str()]);
        }
        assert_eq!(noted("q 1 0 0 a\nq 2 1 0 a\nq 3 1 0 a\n"), [granted[0].as_str()], "beside NL and CR, neither of them alone");
        for (held, mode) in ["CR", "CW", "PR", "PW", "EX"].into_iter().enumerate() {
            assert_eq!(noted(&format!("q 1 {} 0 a\nq 2 5 0 a\n", held + 1)), [format!("request: waits for {mode} alone")]);
        }
        assert_eq!(noted("q 1 1 0 a\nq 2 4 0 a\nq 3 5 0 a\n"), [granted[1].as_str()], "CR and PW are in the way");
        let all = noted(&"q 1 0 0 a\n".repeat(8));
        assert_eq!(all[1..], ["request: all locks hold one mode on one name"]);
    }

    #[test]
    fn conversions_and_their_own_mode() {
        let two = "q 1 1 0 a\nq 2 1 0 a\n";
        assert_eq!(noted(&format!("{two}c 1 1 4 0\n"))[1..], ["convert: not down, in place beside another lock of its mode"]);
        assert_eq!(noted(&format!("{two}c 1 1 0 0\n"))[1..], ["convert: down beside another lock of its mode"]);
        let last = noted("q 1 1 0 a\nq 2 0 0 a\nc 1 1 0 0\n");
        assert_eq!(last[1..], ["convert: down from a mode that no other lock holds, where others hold"]);
        let waits = format!("{two}c 1 1 5 0\n");
        assert_eq!(noted(&waits)[1..], ["convert: queued for other locks of its own mode alone"]);
        assert_eq!(noted(&format!("{waits}c 2 2 5 0\n")), noted(&waits), "the second is behind the first");
        assert_eq!(noted(&format!("q 3 0 0 a\n{two}c 3 1 5 0\n"))[1..], [""; 0], "NL waits for CR");
    }

    #[test]
    fn sweeps_and_a_conversion_of_the_same_mode() {
        let waits = "q 1 3 0 a\nq 2 3 0 a\nq 3 3 0 a\nc 1 1 5 0\n";
        let sweep = |script: &str, what: &str| noted(&format!("{waits}{script}")).iter().any(|noted| noted.ends_with(what));
        let (stops, grants) = ("a convert head waits on for locks of its own mode alone", "to a mode that excludes the one it held");
        assert!(!sweep("", stops) && !sweep("", grants));
        assert!(sweep("r 2 2 0\n", stops) && !sweep("r 2 2 0\n", grants), "PR of client 3 is left");
        assert!(sweep("r 2 2 0\nr 3 3 0\n", grants));
        let beside = noted("q 1 0 0 a\nq 2 0 0 a\nq 3 5 0 a\nc 1 1 3 0\nr 3 3 0\n");
        assert!(beside.iter().any(|noted| noted.ends_with("beside another lock of the mode it held")), "{beside:?}");
    }

    #[test]
    fn locks_that_go() {
        let both = "q 1 1 0 a\nq 2 1 0 a\nq 2 0 0 a\n";
        assert_eq!(noted(&format!("{both}r 1 1 0\n"))[1..], ["release: a lock beside another of its mode"]);
        assert_eq!(noted(&format!("{both}r 2 3 0\n"))[1..], ["release: the last lock of its mode, where others hold"]);
        assert_eq!(noted("q 1 1 0 a\nr 1 1 0\n"), [""; 0]);
        assert_eq!(noted(&format!("{both}p 2\n"))[1..], ["purge: a lock beside another client's of its mode"]);
        assert_eq!(noted(&format!("{both}q 2 0 0 a\np 2\n")).len(), 3, "two locks of NL too");
        assert_eq!(noted("q 1 1 0 a\nq 1 1 0 b\np 1\n"), [""; 0], "on two names");
    }
}
